/* Numbers for points, each as two entries: ordinary ones, and those that are hard to add or to halve. */
#ifndef POINTS_H
#define POINTS_H

#include "meshes.h"
#include "reference.h"

enum { SPECIAL_NUMBERS = 34 };

/* Both zeros, infinities, numbers that are none, the least and the greatest of each kind, and numbers about 2^52 and
   2^53, by their bits. */
extern const uint64_t special_numbers[SPECIAL_NUMBERS];

/* Of so many numbers each is special, whole, of any bits, or of middling size. The caller frees them. */
struct slice any_points(size_t numbers, struct dice *dice);

void put_bits(struct slice points, size_t number, uint64_t bits);
void put_number(struct slice points, size_t number, double value);
double number_at(struct slice points, size_t number);

/* Of n vertices, vertex v is at v, v * v, -2 * v. */
void put_known_points(struct slice points, uint32_t n);

#endif
