/* The surface of one solid point: the normals of its vertices, and picks from it, in the words of the program's output
 * and with the triangle of each. */
#include "terra.h"
#include <stdio.h>

static int tell_normals(terra_world *world, const terra_node *leaf)
{
    terra_normal normals[64];
    terra_block_size size;
    int status = terra_block(world, leaf, &size);
    if (status == TERRA_DONE)
        status = terra_normals(world, leaf, normals, 64);
    for (size_t i = 0; status == TERRA_DONE && i < size.vertices; i++)
        printf("vn %d %d %d\n", normals[i].x, normals[i].y, normals[i].z);
    return status;
}

static int tell_pick(terra_world *world, uint32_t x, uint32_t y)
{
    terra_hit hit;
    const int status = terra_pick(world, x, y, &hit);
    if (status == TERRA_NO_SURFACE)
        printf("# pick %u %u none\n", x, y);
    if (status != TERRA_DONE)
        return status == TERRA_NO_SURFACE ? TERRA_DONE : status;
    const unsigned units = (unsigned)(hit.num / hit.den);
    printf("# pick %u %u %u.%08u in triangle %u of b%u_%u_%u_%u\n", x, y, units / 256, units % 256 * 390625, hit.triangle,
           hit.node.level, hit.node.i, hit.node.j, hit.node.k);
    return TERRA_DONE;
}

int main(void)
{
    const terra_brush point = {TERRA_BOX, TERRA_FILL, {8, 8, 8}, {8, 8, 8}, 0};
    const terra_node root = {0, 0, 0, 0};
    terra_world world = {0};
    int status = terra_open(&world, 0, 0);
    if (status == TERRA_DONE)
        status = terra_edit(&world, &point);
    if (status == TERRA_DONE)
        status = terra_settle(&world);
    if (status == TERRA_DONE)
        status = terra_update(&world);
    if (status == TERRA_DONE)
        status = tell_normals(&world, &root);
    if (status == TERRA_DONE)
        status = tell_pick(&world, 2048, 2048);
    if (status == TERRA_DONE)
        status = tell_pick(&world, 2112, 2048);
    if (status == TERRA_DONE)
        status = tell_pick(&world, 0, 0);
    terra_close(&world);
    return status;
}
