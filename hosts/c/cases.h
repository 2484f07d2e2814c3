/* The worked cases that docs/TRACE.md quotes under "Housings to hold up to the rules", and the sample surface mesh of
   T. J. Alumbaugh and X. Jiao, "Compact Array-Based Mesh Data Structures", with the values printed there; the sides of
   TRI_3 and QUAD_4 in the figures of CGNS; and some of these lists with spare vertices, worked out by hand: the entry
   of a spare vertex is 0, and nothing else changes but the numbers of the vertices after it. Lists in which one row
   alone is a quadrilateral, and what is read where queries are told other columns, are worked out by hand too; lists in
   which elements meet otherwise than at one corner or one edge, or nearly do, from the rules; sibling half-edges and
   holes by hand. */
#ifndef CASES_H
#define CASES_H

#include <stddef.h>
#include <stdint.h>

enum { CASE_ROWS = 8, CASE_ENTRIES = 4 * CASE_ROWS, CASE_VERTICES = 12, CASE_BORDERS = 12, RECOVERED_ROWS = 4 };

/* E2e has `columns` entries for each row. */
struct build_case {
    const char *name;
    uint32_t n, m, columns;
    uint32_t rows[CASE_ROWS][4];
    uint32_t refusal, first, second;
    uint32_t v2e[CASE_VERTICES], e2e[CASE_ENTRIES], b2e[CASE_BORDERS];
};

/* What a list query gives on the tables of the case before it. */
struct list_case {
    const char *build_case, *query;
    uint32_t number, count, list[CASE_BORDERS];
};

/* What a walker at a vertex of the case holds when it starts, and the elements that it gives before 0. */
struct walk_case {
    const char *build_case;
    uint32_t vertex, start, count, elements[CASE_ROWS];
};

/* What the vertex test gives for each vertex of the case: 0 inner, 1 rim, 2 unused. */
struct vertex_case {
    const char *build_case;
    uint32_t kinds[CASE_VERTICES];
};

/* A vertex of the case with elements, to be given a V2e entry of 0: the vertex is unused then, and the border half-edge
   that ends there (0: there is none) has nothing that follows it. */
struct zeroed_case {
    const char *build_case;
    uint32_t vertex, border;
};

/* The numbers of the sides after and before each side of an element of the case, in the figures of CGNS. */
struct figure {
    const char *build_case;
    uint32_t element, sides, next[4], previous[4];
};

/* What a query of a half-edge gives on the list, V2e and B2e of the case when it is told these columns and E2e is this,
   of columns * m entries. */
struct told_case {
    const char *build_case, *query;
    uint32_t columns, e2e[CASE_ENTRIES], code;
    uint32_t refusal, first;
};

/* E2e is offered in `columns` entries for each row; m is told. */
struct recovery_case {
    const char *name;
    uint32_t n, m, columns, v2e[CASE_VERTICES], e2e[4 * RECOVERED_ROWS];
    uint32_t refusal;
    uint32_t rows[RECOVERED_ROWS][4];
};

/* What the siblings of a list are, and the least side from each of its vertices. */
struct sibling_case {
    const char *name;
    uint32_t n, m, rows[CASE_ROWS][4];
    uint32_t v2e[CASE_VERTICES], siblings[CASE_ENTRIES];
};

/* The holes of the case, with the V2e entries of two vertices exchanged; 0, 0: of none. `count` 0 where the case has
   borders: a loop doesn't come back, or meets an entry that is no border. */
struct hole_case {
    const char *build_case;
    uint32_t exchanged[2], count, hole[CASE_BORDERS], lengths[CASE_BORDERS];
};

extern const struct build_case build_cases[];
extern const size_t build_case_count;
extern const struct list_case list_cases[];
extern const size_t list_case_count;
extern const struct walk_case walk_cases[];
extern const size_t walk_case_count;
extern const struct vertex_case vertex_cases[];
extern const size_t vertex_case_count;
extern const struct zeroed_case zeroed_cases[];
extern const size_t zeroed_case_count;
extern const struct figure figures[];
extern const size_t figure_count;
extern const struct told_case told_cases[];
extern const size_t told_case_count;
extern const struct hole_case hole_cases[];
extern const size_t hole_case_count;
extern const struct recovery_case recovery_cases[];
extern const size_t recovery_case_count;
extern const struct sibling_case sibling_cases[];
extern const size_t sibling_case_count;

#endif
