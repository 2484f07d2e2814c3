/* What must hold of sibling half-edges, seen from outside: by following the map, and by what building says of the same
   list. Where it doesn't hold, this is printed and ends the program. Rows are fit. */
#ifndef ROUNDS_H
#define ROUNDS_H

#include "reference.h"

/* From each side the map comes back after it has met each side of the same two vertices once, rising to the last. A
   triangle's fourth entry is 0. */
void check_rounds(struct slice elements, struct slice siblings);

/* The entry of a vertex is the least side from it; 0: there is none. */
void check_least_sides(struct slice elements, struct slice v2e);

/* In tables that were built, what is opposite a side is its sibling; or a border, and it is its own sibling. */
void check_opposites(const struct mesh *t, struct slice siblings);

#endif
