/* What the header allows but does nothing: each call answers, and nothing changes. */
#include "terra.h"
#include <stdio.h>

#define EXPECT(call, status)                                                                                           \
    do {                                                                                                               \
        if ((call) != (status)) {                                                                                      \
            fprintf(stderr, "line %d\n", __LINE__);                                                                    \
            return 1;                                                                                                  \
        }                                                                                                              \
    } while (0)

#if defined(__STDC_VERSION__) && __STDC_VERSION__ >= 201112L
_Static_assert(sizeof(terra_handle) == 16, "handle");
_Static_assert(sizeof(terra_brush) == 36, "brush");
_Static_assert(sizeof(terra_node) == 16, "node");
_Static_assert(sizeof(terra_block_size) == 32, "block size");
_Static_assert(sizeof(terra_vertex) == 12 && sizeof(terra_float3) == 12, "vertex");
_Static_assert(sizeof(terra_triangle) == 12 && sizeof(terra_triangle16) == 6, "triangle");
_Static_assert(sizeof(terra_normal) == 12 && sizeof(terra_hit) == 40, "normal and hit");
_Static_assert(sizeof(terra_counts) == 32 && sizeof(terra_audit_counts) == 24, "counts");
#endif

int main(void)
{
    const terra_brush ground = {TERRA_GROUND, TERRA_FILL, {0, 0, 0}, {0, 0, 0}, 8};
    const terra_brush no_radius = {TERRA_BALL, TERRA_FILL, {8, 8, 8}, {0, 0, 0}, 0};
    const terra_brush no_kind = {9, TERRA_FILL, {8, 8, 8}, {0, 0, 0}, 1};
    const terra_brush no_mode = {TERRA_BALL, 7, {8, 8, 8}, {0, 0, 0}, 1};
    const terra_point outside = {17, 0, 0}, inside = {16, 0, 0};
    const terra_node root = {0, 0, 0, 0}, other = {1, 0, 0, 0}, far_off = {0, 0, 0, 255};
    terra_world world = {0};
    terra_job job = {0};
    terra_frame frame = {0};
    terra_block_size size;
    terra_counts counts;
    terra_vertex vertices[1024];
    terra_normal normals[1024] = {{7, 7, 7}};
    terra_hit hit = {{0, 0, 0, 0}, 7, 7, 7};
    terra_triangle triangles[1024];
    terra_node nodes[8];
    size_t count = 99;

    /* Before the first use. */
    EXPECT(terra_edit(&world, &ground), TERRA_NOT_HELD);
    EXPECT(terra_view_away(&world, 0), TERRA_NOT_HELD);
    EXPECT(terra_undo(&world), TERRA_NOT_HELD);
    EXPECT(terra_settle(&world), TERRA_NOT_HELD);
    EXPECT(terra_update(&world), TERRA_NOT_HELD);
    EXPECT(terra_take(&world, &job), TERRA_NOT_HELD);
    EXPECT(terra_make(&job), TERRA_NOT_HELD);
    EXPECT(terra_stats(&frame, &counts), TERRA_NOT_HELD);
    EXPECT(terra_normals(&frame, &root, normals, 1024), TERRA_NOT_HELD);
    EXPECT(terra_pick(&frame, 0, 0, &hit), TERRA_NOT_HELD);
    terra_close(&world);
    EXPECT(terra_open(&world, 7, 0), TERRA_BAD_SETTINGS);
    EXPECT(terra_open(&world, 0, 9), TERRA_BAD_SETTINGS);
    EXPECT(world.is_open, false);

    EXPECT(terra_open(&world, 0, 0), TERRA_DONE);
    EXPECT(terra_open(&world, 0, 0), TERRA_DONE); /* the first one is freed */
    EXPECT(terra_edit(&world, &no_radius), TERRA_NOT_LAWFUL);
    EXPECT(terra_edit(&world, &no_kind), TERRA_NOT_LAWFUL);
    EXPECT(terra_edit(&world, &no_mode), TERRA_NOT_LAWFUL);
    EXPECT(terra_look_from(&world, &outside), TERRA_NOT_LAWFUL);
    EXPECT(terra_look_from(&world, &inside), TERRA_DONE);
    EXPECT(terra_view_from(&world, 8, &inside), TERRA_NOT_LAWFUL);
    EXPECT(terra_view_from(&world, 7, &outside), TERRA_NOT_LAWFUL);
    EXPECT(terra_view_from(&world, 7, &inside), TERRA_DONE);
    EXPECT(terra_view_away(&world, 8), TERRA_NOT_LAWFUL);
    EXPECT(terra_view_away(&world, 7), TERRA_DONE);
    EXPECT(terra_view_away(&world, 7), TERRA_DONE); /* it was away */
    EXPECT(terra_undo(&world), TERRA_NOTHING_TO_UNDO); /* a viewpoint is no edit */
    EXPECT(terra_take(&world, &job), TERRA_NOTHING);
    EXPECT(terra_pick(&world, 4096, 4096, &hit), TERRA_NO_SURFACE);
    EXPECT(terra_normals(&world, &root, normals, 0), TERRA_DONE); /* there are none */
    EXPECT(terra_edit(&world, &ground), TERRA_DONE);
    EXPECT(terra_update(&world), TERRA_NOT_READY);
    EXPECT(terra_put(&world, nodes, 8, &count), TERRA_DONE);
    EXPECT(count, 0);

    /* A job that comes late. */
    EXPECT(terra_take(&world, &job), TERRA_DONE);
    EXPECT(terra_deliver(&world, &job), TERRA_NOT_HELD); /* not made */
    EXPECT(terra_normals(&job, &root, normals, 1024), TERRA_NOT_HELD);
    EXPECT(terra_pick(&job, 0, 0, &hit), TERRA_NOT_HELD);
    EXPECT(terra_make(&job), TERRA_DONE);
    EXPECT(terra_make(&job), TERRA_NOT_HELD); /* made already */
    EXPECT(terra_edit(&world, &(terra_brush){TERRA_BALL, TERRA_CARVE, {8, 8, 8}, {0, 0, 0}, 5}), TERRA_DONE);
    EXPECT(terra_deliver(&world, &job), TERRA_STALE);
    EXPECT(terra_undo(&world), TERRA_DONE);
    EXPECT(terra_deliver(&world, &job), TERRA_NOT_HELD); /* handed in already */
    /* One that never comes. */
    EXPECT(terra_take(&world, &job), TERRA_DONE);
    EXPECT(terra_take(&world, &job), TERRA_NOTHING);
    EXPECT(terra_recall(&world), TERRA_DONE);
    EXPECT(terra_take(&world, &job), TERRA_DONE);
    EXPECT(terra_make(&job), TERRA_DONE);
    EXPECT(terra_deliver(&world, &job), TERRA_DONE);
    EXPECT(terra_update(&world), TERRA_DONE);
    EXPECT(terra_put(&world, nodes, 0, &count), TERRA_NO_ROOM);
    EXPECT(count, 1);
    EXPECT(terra_put(&world, nodes, 8, &count), TERRA_DONE);

    /* Frames, of a world and held. */
    EXPECT(terra_snapshot(&world, &frame), TERRA_DONE);
    EXPECT(terra_edit(&frame, &ground), TERRA_NOT_HELD);
    EXPECT(terra_block(&frame, &other, &size), TERRA_NOT_A_LEAF);
    EXPECT(terra_block(&frame, &far_off, &size), TERRA_NOT_A_LEAF);
    EXPECT(terra_block(&frame, &root, &size), TERRA_DONE);
    EXPECT(terra_vertices(&frame, &root, vertices, size.vertices - 1), TERRA_NO_ROOM);
    EXPECT(terra_vertices(&frame, &root, vertices, 1024), TERRA_DONE);
    EXPECT(terra_triangles(&world, &root, triangles, 1024), TERRA_DONE);
    terra_close(&world);
    terra_close(&world);
    EXPECT(terra_triangles(&frame, &root, triangles, 1024), TERRA_DONE);

    /* Normals and picks, of a frame whose world is closed. */
    EXPECT(terra_normals(&frame, &other, normals, 1024), TERRA_NOT_A_LEAF);
    EXPECT(terra_normals(&frame, &far_off, normals, 0), TERRA_NOT_A_LEAF);
    EXPECT(terra_normals(&frame, &root, normals, size.vertices - 1), TERRA_NO_ROOM);
    EXPECT(normals[0].x == 7 && normals[0].y == 7 && normals[0].z == 7, true);
    EXPECT(terra_normals(&frame, &root, normals, size.vertices), TERRA_DONE);
    EXPECT(normals[0].x == 0 && normals[0].y == 0 && normals[0].z == 512, true);
    EXPECT(normals[size.vertices].z, 0);
    EXPECT(terra_pick(&frame, 4097, 0, &hit), TERRA_NOT_LAWFUL);
    EXPECT(terra_pick(&frame, 0, 4097, &hit), TERRA_NOT_LAWFUL);
    EXPECT(terra_pick(&frame, UINT32_MAX, UINT32_MAX, &hit), TERRA_NOT_LAWFUL);
    EXPECT(hit.triangle == 7 && hit.num == 7 && hit.den == 7, true);
    EXPECT(terra_pick(&frame, 0, 4096, &hit), TERRA_DONE);
    EXPECT(hit.num, 2176 * hit.den); /* half a cell above the highest solid points */
    EXPECT(terra_pick(&world, 0, 0, &hit), TERRA_NOT_HELD);
    terra_close(&frame);
    terra_close(&job);
    puts("each misuse is answered");
    return 0;
}
