/* Each allocation is refused in turn: every call answers, nothing is lost, and the world can be used afterwards. */
#include "terra.h"
#include <stdio.h>
#include <stdlib.h>
#include <string.h>

/* A heap of its own in the place of heap.c: the allocation number `left` from now on is refused, and those behind it. */
static long left = -1;
static long live = 0;

struct tried {
    bool is_there;
    void *at;
};

static unsigned char nowhere;

static bool is_allowed(void)
{
    return left < 0 || left-- > 0;
}

struct tried rattle_alloc(size_t size, size_t align)
{
    void *at = is_allowed() ? malloc(size != 0 ? size : align) : NULL;
    struct tried result = {at != NULL, at != NULL ? at : &nowhere};
    live += at != NULL;
    return result;
}

struct tried rattle_realloc(void *at, size_t kept, size_t size, size_t align)
{
    void *moved = is_allowed() ? realloc(at, size != 0 ? size : align) : NULL;
    struct tried result = {moved != NULL, moved != NULL ? moved : &nowhere};
    (void)kept;
    return result;
}

void rattle_dealloc(void *at)
{
    live--;
    free(at);
}

/* What a game does in a frame, with jobs and a snapshot; the first answer that isn't DONE. Normals and picks take no
 * memory, so none is refused. */
static int play(terra_world *world, terra_job *job, terra_frame *frame)
{
    const terra_brush ground = {TERRA_GROUND, TERRA_FILL, {0, 0, 0}, {0, 0, 0}, 12};
    const terra_brush ball = {TERRA_BALL, TERRA_CARVE, {9, 8, 12}, {0, 0, 0}, 5};
    const terra_point camera = {4, 4, 12};
    terra_audit_counts audit;
    terra_normal normals[4096];
    terra_hit hit;
    size_t count;
    terra_node nodes[64];
    int status = world->is_open ? TERRA_DONE : terra_open(world, 1, 1);
    if (status == TERRA_DONE)
        status = terra_edit(world, &ground);
    if (status == TERRA_DONE)
        status = terra_look_from(world, &camera);
    if (status == TERRA_DONE)
        status = terra_take(world, job);
    if (status == TERRA_DONE)
        status = terra_make(job);
    if (status == TERRA_DONE)
        status = terra_deliver(world, job);
    if (status == TERRA_DONE)
        status = terra_edit(world, &ball);
    if (status == TERRA_DONE)
        status = terra_undo(world);
    if (status == TERRA_DONE)
        status = terra_edit(world, &ball);
    if (status == TERRA_DONE)
        status = terra_settle(world);
    if (status == TERRA_DONE)
        status = terra_update(world);
    if (status == TERRA_DONE)
        status = terra_snapshot(world, frame);
    if (status == TERRA_DONE)
        status = terra_leaves(frame, nodes, 64, &count);
    if (status == TERRA_DONE) {
        const long allowed = left;
        left = 0;
        if (terra_normals(frame, &nodes[0], normals, 4096) != TERRA_DONE
            || terra_pick(frame, 8192, 8192, &hit) != TERRA_DONE || hit.num != 3200 * hit.den)
            return -1;
        left = allowed;
    }
    if (status == TERRA_DONE)
        status = terra_audit(frame, &audit);
    return status == TERRA_DONE && audit.cracks != 0 ? -1 : status;
}

int main(void)
{
    int runs = 0;
    for (long number = 0; number < 100000; number++) {
        terra_world world;
        terra_job job;
        terra_frame frame;
        memset(&world, 0, sizeof world);
        memset(&job, 0, sizeof job);
        memset(&frame, 0, sizeof frame);
        left = number;
        const int status = play(&world, &job, &frame);
        left = -1;
        if (status != TERRA_DONE && status != TERRA_NO_MEMORY)
            return 2;
        terra_close(&job);
        terra_close(&frame);
        /* The same world goes on, or a new one where it couldn't be opened. */
        if (status != TERRA_DONE && play(&world, &job, &frame) != TERRA_DONE)
            return 3;
        terra_close(&job);
        terra_close(&frame);
        terra_close(&world);
        if (live != 0)
            return 4;
        if (status == TERRA_DONE) {
            printf("%d runs out of memory, each answered; nothing lost\n", runs);
            return 0;
        }
        runs++;
    }
    return 5;
}
