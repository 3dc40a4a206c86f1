/* The events of examples/valley.jsonl by calls, and the mesh as the program writes it.
 *
 *   valley [normals]    writes a shot without the normals of its vertices, or with them
 */
#include "terra.h"
#include "terra_obj.h"
#include <stdio.h>
#include <string.h>

static terra_brush ground(uint32_t height)
{
    terra_brush brush = {TERRA_GROUND, TERRA_FILL, {0, 0, 0}, {0, 0, 0}, height};
    return brush;
}

static terra_brush ball(uint32_t mode, uint32_t x, uint32_t y, uint32_t z, uint32_t radius)
{
    terra_brush brush = {TERRA_BALL, mode, {x, y, z}, {0, 0, 0}, radius};
    return brush;
}

int main(int argc, char **argv)
{
    const terra_brush brushes[] = {
        ground(40),
        ball(TERRA_CARVE, 0, 64, 52, 30),
        ball(TERRA_CARVE, 36, 58, 50, 26),
        ball(TERRA_CARVE, 70, 64, 48, 24),
        ball(TERRA_CARVE, 100, 76, 46, 22),
        ball(TERRA_CARVE, 128, 84, 46, 22),
        ball(TERRA_FILL, 64, 110, 36, 22),
    };
    const terra_point camera = {8, 60, 40};
    terra_world world = {0};
    const bool has_normals = argc > 1 && strcmp(argv[1], "normals") == 0;
    int status = terra_open(&world, 3, 1);
    for (size_t i = 0; status == TERRA_DONE && i < sizeof brushes / sizeof *brushes; i++)
        status = terra_edit(&world, &brushes[i]);
    if (status == TERRA_DONE)
        status = terra_look_from(&world, &camera);
    if (status == TERRA_DONE)
        status = terra_settle(&world);
    if (status == TERRA_DONE)
        status = terra_update(&world);
    if (status == TERRA_DONE)
        status = terra_obj_stats(stdout, &world);
    if (status == TERRA_DONE)
        status = terra_obj_shot(stdout, &world, 1, has_normals);
    terra_close(&world);
    return status;
}
