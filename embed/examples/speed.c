/* How long an edit of radius 4 takes with its changed blocks copied out, how long a call, and how long a pick.
 *
 *   speed [POINTS]    carves at points of its own, or at those of a file: x y z, one a line, at most 4096
 */
#define _POSIX_C_SOURCE 199309L
#include "terra.h"
#include <stdio.h>
#include <stdlib.h>
#include <time.h>

enum { EDITS = 4096, ROOM = 1 << 16, LEAVES = 8192 };

/* What is copied out. */
struct room {
    terra_node nodes[LEAVES];
    terra_float3 vertices[ROOM];
    terra_triangle triangles[ROOM];
};

static double now(void)
{
    struct timespec time;
    clock_gettime(CLOCK_MONOTONIC, &time);
    return (double)time.tv_sec * 1e3 + (double)time.tv_nsec / 1e6;
}

static int compare(const void *a, const void *b)
{
    const double x = *(const double *)a, y = *(const double *)b;
    return (x > y) - (x < y);
}

static size_t points_of_file(const char *name, terra_point *points)
{
    FILE *file = fopen(name, "r");
    size_t count = 0;
    while (file != NULL && count < EDITS
           && fscanf(file, "%u %u %u", &points[count].x, &points[count].y, &points[count].z) == 3)
        count++;
    if (file != NULL)
        fclose(file);
    return count;
}

/* Points near the ground, all over the world. */
static size_t points_of_ours(terra_point *points)
{
    for (unsigned n = 0; n < 2000; n++) {
        const unsigned mixed = n * 2654435761u;
        points[n].x = mixed % 257;
        points[n].y = (mixed >> 8) % 257;
        points[n].z = 124 + (mixed >> 16) % 9;
    }
    return 2000;
}

/* One edit as a game makes it, from the brush to the last copied triangle. */
static int carve(terra_world *world, const terra_point *at, struct room *room, size_t *copied)
{
    const terra_brush ball = {TERRA_BALL, TERRA_CARVE, *at, {0, 0, 0}, 4};
    terra_block_size size;
    size_t count;
    if (terra_edit(world, &ball) || terra_settle(world) || terra_update(world)
        || terra_put(world, room->nodes, LEAVES, &count))
        return 2;
    for (size_t i = 0; i < count; i++) {
        if (terra_block(world, &room->nodes[i], &size)
            || terra_floats(world, &room->nodes[i], room->vertices, ROOM)
            || terra_triangles(world, &room->nodes[i], room->triangles, ROOM))
            return 3;
        *copied += size.triangles;
    }
    return 0;
}

/* Picks at places all over the world, and returns how many nanoseconds one takes. */
static double pick_all(terra_world *world)
{
    enum { PICKS = 100000 };
    terra_hit hit;
    const double start = now();
    for (unsigned n = 0; n < PICKS; n++) {
        const unsigned mixed = n * 2654435761u;
        terra_pick(world, mixed % 65537, (mixed >> 8) % 65537, &hit);
    }
    return (now() - start) * 1e6 / PICKS;
}

int main(int argc, char **argv)
{
    static struct room room;
    static terra_point points[EDITS];
    static double times[EDITS];
    const size_t edits = argc > 1 ? points_of_file(argv[1], points) : points_of_ours(points);
    const terra_brush ground = {TERRA_GROUND, TERRA_FILL, {0, 0, 0}, {0, 0, 0}, 128};
    const terra_point camera = {128, 128, 128};
    terra_world world = {0};
    terra_counts counts;
    size_t copied = 0;
    double whole = 0;
    if (terra_open(&world, 4, 2) || terra_look_from(&world, &camera) || terra_edit(&world, &ground)
        || terra_settle(&world) || terra_update(&world))
        return 1;
    const double pick = pick_all(&world);
    for (size_t n = 0; n < edits; n++) {
        const double start = now();
        const int status = carve(&world, &points[n], &room, &copied);
        if (status != 0)
            return status;
        times[n] = now() - start;
        whole += times[n];
    }
    if (edits > 0) {
        qsort(times, edits, sizeof *times, compare);
        printf("edit of radius 4 with its blocks copied out: median %.4f ms, mean %.4f ms, 99 of 100 below %.4f ms "
               "(%zu triangles in all)\n",
               times[edits / 2], whole / (double)edits, times[edits * 99 / 100], copied);
        const double start = now();
        for (int n = 0; n < 1000000; n++)
            terra_stats(&world, &counts);
        printf("a call: %.1f ns\n", now() - start);
    }
    printf("a pick: %.1f ns\n", pick);
    terra_close(&world);
    return 0;
}
