/* Element lists with edges at which three plates or more meet. */
#ifndef RIBS_H
#define RIBS_H

#include "meshes.h"

/* `count` sheets of length x height cells on one line of vertices, 1 to length + 1, each turned over or not. */
struct list leaves(uint32_t count, uint32_t length, uint32_t height, enum kinds kinds, struct dice *dice);

/* A sheet with `count` ribs, each on any of its lines, across or along. */
struct list panel(uint32_t width, uint32_t height, uint32_t count, enum kinds kinds, struct dice *dice);

/* A floor of width x height quadrilaterals, and a wall of one on each of their edges. */
struct list compartments(uint32_t width, uint32_t height, struct dice *dice);

/* `count` plates on any of n vertices, at least four: each of three corners or four, all different. */
struct list crowd(uint32_t n, uint32_t count, struct dice *dice);

/* `count` times the same plate of the corners given, turned over each second time or not. */
struct list pile(uint32_t n, uint32_t count, const uint32_t *row, int turned);

/* One of these, of up to about `size` elements. */
struct list any_ribs(struct dice *dice, uint32_t size);

/* One of the plates once more, turned over or not. */
void double_plate(struct list *list, struct dice *dice);

#endif
