/* Writes a frame as the program does: Wavefront OBJ. */
#ifndef TERRA_OBJ_H
#define TERRA_OBJ_H

#include "terra.h"
#include <stdio.h>
#include <stdlib.h>

static void terra_obj_coordinate(FILE *out, uint32_t units)
{
    fprintf(out, " %u.%08u", units / 256, units % 256 * 390625);
}

/* Writes the line of stats. */
static inline int terra_obj_stats(FILE *out, terra_handle *of)
{
    terra_counts counts;
    int status = terra_stats(of, &counts);
    if (status == TERRA_DONE)
        fprintf(out, "# stats leaves %llu triangles %llu keys %llu\n", (unsigned long long)counts.leaves,
                (unsigned long long)counts.triangles, (unsigned long long)counts.keys);
    return status;
}

/* Writes the lines of the normals of a leaf's vertices. */
static inline int terra_obj_normals(FILE *out, terra_handle *of, const terra_node *node, size_t count)
{
    terra_normal *normals = (terra_normal *)malloc(count * sizeof *normals);
    int status = TERRA_NO_MEMORY;
    if (normals != NULL)
        status = terra_normals(of, node, normals, count);
    for (size_t i = 0; status == TERRA_DONE && i < count; i++)
        fprintf(out, "vn %d %d %d\n", normals[i].x, normals[i].y, normals[i].z);
    free(normals);
    return status;
}

/* Writes the block of a leaf, whose vertices are numbered on behind *base, with normals that have the same numbers or
 * without. */
static inline int terra_obj_block(FILE *out, terra_handle *of, const terra_node *node, size_t *base, bool has_normals)
{
    terra_block_size size;
    int status = terra_block(of, node, &size);
    if (status != TERRA_DONE || size.triangles == 0)
        return status;
    terra_vertex *vertices = (terra_vertex *)malloc(size.vertices * sizeof *vertices);
    terra_triangle *triangles = (terra_triangle *)malloc(size.triangles * sizeof *triangles);
    status = vertices != NULL && triangles != NULL ? TERRA_DONE : TERRA_NO_MEMORY;
    if (status == TERRA_DONE)
        status = terra_vertices(of, node, vertices, size.vertices);
    if (status == TERRA_DONE)
        status = terra_triangles(of, node, triangles, size.triangles);
    if (status == TERRA_DONE) {
        fprintf(out, "g b%u_%u_%u_%u\n", node->level, node->i, node->j, node->k);
        for (size_t i = 0; i < size.vertices; i++) {
            fputc('v', out);
            terra_obj_coordinate(out, vertices[i].x);
            terra_obj_coordinate(out, vertices[i].y);
            terra_obj_coordinate(out, vertices[i].z);
            fputc('\n', out);
        }
        if (has_normals)
            status = terra_obj_normals(out, of, node, size.vertices);
        for (size_t i = 0; i < size.triangles; i++) {
            const size_t a = *base + triangles[i].a + 1, b = *base + triangles[i].b + 1, c = *base + triangles[i].c + 1;
            if (has_normals)
                fprintf(out, "f %zu//%zu %zu//%zu %zu//%zu\n", a, a, b, b, c, c);
            else
                fprintf(out, "f %zu %zu %zu\n", a, b, c);
        }
        *base += size.vertices;
    }
    free(triangles);
    free(vertices);
    return status;
}

/* Writes the shot with this number, of a world's frame or of a frame, with normals or without. */
static inline int terra_obj_shot(FILE *out, terra_handle *of, unsigned number, bool has_normals)
{
    terra_counts counts;
    int status = terra_stats(of, &counts);
    if (status != TERRA_DONE)
        return status;
    size_t count = 0, base = 0;
    terra_node *nodes = (terra_node *)malloc((size_t)counts.leaves * sizeof *nodes);
    if (nodes == NULL)
        return TERRA_NO_MEMORY;
    status = terra_leaves(of, nodes, (size_t)counts.leaves, &count);
    if (status == TERRA_DONE)
        fprintf(out, "o shot_%u\n# events %llu\n", number, (unsigned long long)counts.events);
    for (size_t i = 0; status == TERRA_DONE && i < count; i++)
        status = terra_obj_block(out, of, &nodes[i], &base, has_normals);
    free(nodes);
    return status;
}

#endif
