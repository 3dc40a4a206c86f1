/* terra.h: a voxel terrain engine for C, C++ and whatever calls C.
 *
 * A world is a cube of fine cells, z up. It is edited by brushes, meshed block by block (finer near its viewpoints), and
 * drawn from its frame, which `terra_update` brings up to date. A call takes handles, plain data and room of the
 * caller's, and answers a status. Nothing aborts, nothing waits, no thread is started, and no pointer into the library's
 * memory goes out.
 *
 * What the caller owes, and nothing checks:
 *  - Set all bytes of a handle to 0 before its first use (`terra_handle world = {0};`). From then on only the library
 *    changes them. Don't copy a handle that holds something: closing both copies frees it twice.
 *  - Every pointer points to what its type says, aligned, and to as many items as the count behind it. None is NULL,
 *    not even with a count of 0. Two pointers of one call don't overlap.
 *  - One call at a time for each handle. Handles may go to other threads, in an order that a lock, a join or the like
 *    makes; different handles may be used at the same time.
 *  - No call from a signal handler, nor in the forked child of a process with threads.
 *  - malloc, realloc and free come from one allocator, and align to 16 bytes.
 *  - 256 KiB of stack are free at a call.
 */
#ifndef TERRA_H
#define TERRA_H

#include <stdbool.h>
#include <stddef.h>
#include <stdint.h>

#ifdef __cplusplus
extern "C" {
#endif

/* What a call answers. Every answer but TERRA_DONE leaves all as it was, but that terra_settle may have meshed leaves
 * before memory ran out, and that terra_deliver takes a stale job. */
enum {
    TERRA_DONE = 0,
    TERRA_NO_MEMORY = 1,    /* memory ran out */
    TERRA_BAD_SETTINGS = 2, /* the depth is above 6, or the reach above 8 */
    TERRA_NOT_LAWFUL = 3,   /* a brush or a camera beyond the world, an empty box, a ball of radius 0, a viewpoint 8 .. */
    TERRA_FULL = 4,         /* the world has taken 65,535 events */
    TERRA_NOT_HELD = 5,     /* a handle doesn't hold what the call is for */
    TERRA_NOT_READY = 6,    /* a leaf isn't meshed yet */
    TERRA_NOT_A_LEAF = 7,   /* the node isn't a leaf of the frame */
    TERRA_NO_ROOM = 8,      /* there is more to copy than room for it */
    TERRA_NOTHING = 9,      /* no leaf is wanted */
    TERRA_STALE = 10,       /* the block was made for a field that is another one by now */
    TERRA_TOO_LARGE = 11,   /* the block has more vertices than 16 bits can number */
    TERRA_NOTHING_TO_UNDO = 12, /* no edit is in force, and the journal has room */
    TERRA_NO_SURFACE = 13   /* no triangle is over or under the place */
};

/* What is held: a world, a job, a frame, or nothing. The names say what a call expects. */
typedef struct terra_handle {
    void *at;
    bool is_open;
} terra_handle;
typedef terra_handle terra_world;
typedef terra_handle terra_job;
typedef terra_handle terra_frame;

/* A point, in fine cells. */
typedef struct terra_point {
    uint32_t x, y, z;
} terra_point;

enum { TERRA_BOX = 0, TERRA_BALL = 1, TERRA_GROUND = 2, TERRA_SMOOTH = 3 };
enum { TERRA_FILL = 0, TERRA_CARVE = 1 };

/* A brush: a box from lo to hi, a ball at lo of radius size, the ground up to the height size, or smoothing of the
 * points from lo to hi, for which the mode means nothing. */
typedef struct terra_brush {
    uint32_t kind, mode;
    terra_point lo, hi;
    uint32_t size;
} terra_brush;

/* A node: a cube of side 16 * 2^level fine cells, whose low corner is (i, j, k) times that side. The nodes that have
 * blocks are leaves. */
typedef struct terra_node {
    uint32_t i, j, k;
    uint8_t level;
} terra_node;

/* A block: how many vertices and triangles it has, and its low corner, in fine cells. */
typedef struct terra_block_size {
    size_t vertices, triangles;
    terra_point origin;
} terra_block_size;

/* The side of the cells of a leaf's block, in fine cells. */
static inline uint32_t terra_cell_side(const terra_node *leaf)
{
    return (uint32_t)1 << leaf->level;
}

/* A vertex, in 1/256 fine cells of the world. */
typedef struct terra_vertex {
    uint32_t x, y, z;
} terra_vertex;

/* The same in fine cells, exactly. */
typedef struct terra_float3 {
    float x, y, z;
} terra_float3;

/* The normal of a vertex, as for light: it is meant to lead to the empty side, has any length, and may be 0. */
typedef struct terra_normal {
    int32_t x, y, z;
} terra_normal;

/* What a pick finds: the highest point's height, which is exactly num / den in 1/256 fine cells, and the first triangle
 * that has it, by its leaf and its number in the leaf's block, from 0. den is at least 1. */
typedef struct terra_hit {
    terra_node node;
    uint32_t triangle;
    uint64_t num, den;
} terra_hit;

/* A triangle: the indices of its vertices in its block, counter-clockwise as seen from the empty side. */
typedef struct terra_triangle {
    uint32_t a, b, c;
} terra_triangle;

typedef struct terra_triangle16 {
    uint16_t a, b, c;
} terra_triangle16;

/* How many events a frame has, and how many leaves, triangles and keys; a vertex counts in each leaf that has it. */
typedef struct terra_counts {
    uint64_t events, leaves, triangles, keys;
} terra_counts;

/* How many directed edges the triangles of a frame have, and how many pairs of vertices they leave open in the world
 * (0: no crack) and on its border. */
typedef struct terra_audit_counts {
    uint64_t edges, cracks, border;
} terra_audit_counts;

/* ---- worlds */

/* Makes a world of side 16 * 2^depth, before any event, in the place of what the handle holds. The reach says how near
 * a viewpoint has to be for finer blocks. NO_MEMORY, BAD_SETTINGS. */
uint8_t terra_open(terra_world *world, uint8_t depth, uint8_t reach);

/* Frees what a handle holds, if anything: a world, a job or a frame. The handle can be used anew. */
void terra_close(terra_handle *handle);

/* Applies a brush. NO_MEMORY, NOT_LAWFUL, FULL, NOT_HELD. */
uint8_t terra_edit(terra_world *world, const terra_brush *brush);

/* Undoes the last edit that is in force: the field is as if it had never been made, and an undo behind it undoes the one
 * before. It is one event more, so the frames of other holders stay as they are. To make an edit again, apply its brush
 * again. NO_MEMORY, FULL, NOTHING_TO_UNDO, NOT_HELD. */
uint8_t terra_undo(terra_world *world);

/* Puts the viewpoint 0 at a point: the camera of a game that has one. NO_MEMORY, NOT_LAWFUL, FULL, NOT_HELD. */
uint8_t terra_look_from(terra_world *world, const terra_point *at);

/* Put one of up to eight viewpoints, 0 to 7, at a point, and take one away, as for players who come and go. Blocks are
 * fine near each of them. NO_MEMORY, NOT_LAWFUL, FULL, NOT_HELD. */
uint8_t terra_view_from(terra_world *world, uint8_t view, const terra_point *at);
uint8_t terra_view_away(terra_world *world, uint8_t view);

/* Meshes every leaf that isn't meshed, on this thread. NO_MEMORY, NOT_HELD. */
uint8_t terra_settle(terra_world *world);

/* Brings the frame up to date with all events. NO_MEMORY, NOT_READY, NOT_HELD. */
uint8_t terra_update(terra_world *world);

/* Copy the leaves whose blocks the last update put, and those that went by it, in the order of nodes. All other leaves
 * have the blocks that they had. *count is how many there are, also where the answer is NO_ROOM. NO_ROOM, NOT_HELD. */
uint8_t terra_put(terra_world *world, terra_node *nodes, size_t room, size_t *count);
uint8_t terra_gone(terra_world *world, terra_node *nodes, size_t room, size_t *count);

/* ---- frames: `of` is a world, whose frame is read, or a frame */

/* Copies all leaves, in the order of nodes. *count as above. NO_MEMORY, NO_ROOM, NOT_HELD. */
uint8_t terra_leaves(terra_handle *of, terra_node *nodes, size_t room, size_t *count);

/* Tells how large a leaf's block is. NOT_A_LEAF, NOT_HELD. */
uint8_t terra_block(terra_handle *of, const terra_node *node, terra_block_size *size);

/* Copy the vertices of a leaf's block, as many normals in the same order, and the triangles. A vertex has the same normal
 * in each block that has it. NOT_A_LEAF, NO_ROOM, NOT_HELD, TOO_LARGE for 16 bits. */
uint8_t terra_vertices(terra_handle *of, const terra_node *node, terra_vertex *vertices, size_t room);
uint8_t terra_floats(terra_handle *of, const terra_node *node, terra_float3 *vertices, size_t room);
uint8_t terra_normals(terra_handle *of, const terra_node *node, terra_normal *normals, size_t room);
uint8_t terra_triangles(terra_handle *of, const terra_node *node, terra_triangle *triangles, size_t room);
uint8_t terra_triangles16(terra_handle *of, const terra_node *node, terra_triangle16 *triangles, size_t room);

/* Finds the highest point of the surface over the place (x, y), in 1/256 fine cells: where a foot, a wheel or a tree
 * stands. It takes no memory. NOT_LAWFUL where x or y is above 256 times the world's side, NO_SURFACE, NOT_HELD. */
uint8_t terra_pick(terra_handle *of, uint32_t x, uint32_t y, terra_hit *hit);

/* Counts. NO_MEMORY for the audit, NOT_HELD. */
uint8_t terra_stats(terra_handle *of, terra_counts *counts);
uint8_t terra_audit(terra_handle *of, terra_audit_counts *counts);

/* Makes another holder of a frame, in the place of what `frame` holds. It stays as it is while the world goes on, and
 * may go to another thread; close it there. NO_MEMORY, NOT_HELD. */
uint8_t terra_snapshot(terra_handle *of, terra_frame *frame);

/* ---- jobs, for a game that meshes on threads of its own */

/* Takes the next wanted brick as a job, in the place of what `job` holds. NOTHING, NO_MEMORY, NOT_HELD. */
uint8_t terra_take(terra_world *world, terra_job *job);

/* Makes the mesh of a job, in any thread. NO_MEMORY: make it again. NOT_HELD. */
uint8_t terra_make(terra_job *job);

/* Hands a made job in on the world's thread; the job holds nothing then. It may come late or never. STALE, NOT_HELD. */
uint8_t terra_deliver(terra_world *world, terra_job *job);

/* Asks anew for every brick that was taken and didn't come back. NOT_HELD. */
uint8_t terra_recall(terra_world *world);

#ifdef __cplusplus
}
#endif
#endif
