/* Element lists to try the calls on: housings that are sound, and housings that aren't. */
#ifndef MESHES_H
#define MESHES_H

#include <stddef.h>
#include <stdint.h>

/* A generator of numbers that a seed fixes. */
struct dice {
    uint64_t state;
};

uint32_t any_number(struct dice *dice);
/* 0 to bound - 1 */
uint32_t below(struct dice *dice, uint32_t bound);

void swap(uint32_t *a, uint32_t *b);

struct list {
    uint32_t n;
    size_t m, room;
    uint32_t *rows;
};

enum kinds { TRIANGLES, QUADRILATERALS, MIXED };

struct list empty_list(uint32_t n, size_t room);
void drop_list(struct list *list);
void add_row(struct list *list, uint32_t a, uint32_t b, uint32_t c, uint32_t d);
/* Rows on vertices that the list has. */
void add_rows(struct list *list, const struct list *other);
/* A quadrilateral of these corners, or the two triangles of one of its diagonals. */
void add_cell(struct list *list, const uint32_t corner[4], enum kinds kinds, struct dice *dice);
/* A list beside it: its vertices come after those that are there. */
void add_list(struct list *list, const struct list *other);

/* A sheet of width x height cells. Closed in one direction it is a tube, in both it has no border. */
struct list sheet(uint32_t width, uint32_t height, int closed_across, int closed_along, enum kinds kinds,
                  struct dice *dice);
/* Triangles about vertex 1; the closed fan has no border there. */
struct list fan(uint32_t count, int closed);
/* Two closed fans on one rim: a closed surface. */
struct list bipyramid(uint32_t count);
/* `count` triangles on the edge of vertices 1 and 2, over n vertices. */
struct list book(uint32_t n, uint32_t count);
/* `count` elements of `corners` vertices each, none shared: their borders, like their vertices, are numbered in order,
   and border b leaves vertex b. */
struct list apart(uint32_t corners, uint32_t count);
/* `count` spare vertices, numbered from `after` + 1 on; the vertices that had these numbers come after them. */
void add_spare(struct list *list, uint32_t after, uint32_t count);
/* One of these, or two of them side by side, of up to about `size` elements, with and without spare vertices; or
   spare vertices alone. */
struct list any_housing(struct dice *dice, uint32_t size);

/* These keep a sound list sound. */
void renumber_vertices(struct list *list, struct dice *dice);
void shuffle_rows(struct list *list, struct dice *dice);
void rotate_rows(struct list *list, struct dice *dice);
void turn_over(struct list *list);
/* Some of these, chosen at random. */
void disguise(struct list *list, struct dice *dice);
/* All of these, but not turned over. */
struct list shuffled(struct list list, struct dice *dice);

/* 3 or 4 */
uint32_t corners_of(const uint32_t *row);
/* The row begins with the corner that was `by` places after the first. */
void rotate_row(uint32_t *row, uint32_t by);
/* The rows after it move up. */
void take_row_out(struct list *list, size_t f);
/* Vertices without an element go, and the others close up. */
void close_numbering(struct list *list);

/* One slip of a mesher, or one more spare vertex, chosen at random. */
void damage_list(struct list *list, struct dice *dice);
/* Some entries of a table made wrong; `codes` bounds what they then name, mostly. */
void damage_table(uint32_t *table, size_t len, uint32_t codes, struct dice *dice);

#endif
