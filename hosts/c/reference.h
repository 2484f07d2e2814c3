/*
 * The rules that docs/TRACE.md quotes and the crates of rules define, once more, by other means than the
 * kernel's and without regard to speed: what the kernel's answers are compared with.
 */
#ifndef REFERENCE_H
#define REFERENCE_H

#include <stddef.h>
#include <stdint.h>

struct slice {
    uint32_t *at;
    size_t len;
};

/* bytes of any kind */
struct text {
    const uint8_t *at;
    size_t len;
};

/* What a call is given apart from its own numbers: the element list and the three tables. */
struct mesh {
    uint32_t n;
    uint32_t columns; /* what a query is told; 0: it is to look at the list */
    struct slice elements, v2e, e2e, b2e;
};

/* refusal 0: an answer; else first and second are the place */
struct answer {
    uint32_t refusal, first, second;
};

/* the record of a walker: start side, next side, count */
struct record {
    uint32_t start, next, count;
};

/* 3 where no whole row of an element list has a fourth entry other than 0, else 4 */
uint32_t columns_of(struct slice elements);

/* The tables that a list of fit length would have if its elements could meet in any way, in buffers that are the
   caller's. Returns 0 where one of checks 3 to 8 refuses the list. */
int tables_but_for_18(uint32_t n, struct slice elements, struct mesh *t);

struct answer reference_build(const struct mesh *mesh, struct slice work);
struct answer reference_columns(uint32_t n, struct slice elements);
struct answer reference_recover(const struct mesh *mesh, uint32_t m, struct slice work);
/* of the mesh n, the element list and V2e */
struct answer reference_siblings(const struct mesh *mesh, struct slice siblings, struct slice work);

struct answer reference_opposite(const struct mesh *mesh, uint32_t code);
struct answer reference_next(const struct mesh *mesh, uint32_t code);
struct answer reference_previous(const struct mesh *mesh, uint32_t code);
struct answer reference_element(const struct mesh *mesh, uint32_t code);
struct answer reference_origin(const struct mesh *mesh, uint32_t code);
struct answer reference_destination(const struct mesh *mesh, uint32_t code);
struct answer reference_across(const struct mesh *mesh, uint32_t code);
struct answer reference_halfedge_is_border(const struct mesh *mesh, uint32_t code);
struct answer reference_vertex_is_border(const struct mesh *mesh, uint32_t v);

struct answer reference_ring(const struct mesh *mesh, uint32_t v, struct slice out);
struct answer reference_neighbours(const struct mesh *mesh, uint32_t v, struct slice out);
struct answer reference_border_loop(const struct mesh *mesh, uint32_t b, struct slice out);
struct answer reference_holes(const struct mesh *mesh, struct slice hole, struct slice lengths, struct slice work);

struct answer reference_walker_start(const struct mesh *mesh, uint32_t v, struct record *walker);
struct answer reference_walker_step(const struct mesh *mesh, struct record *walker);

#endif
