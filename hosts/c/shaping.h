/* The number of a housing's shape, once more, by other means than the kernel's: the vertex pairs of all sides are
   sorted, and those that differ are counted. */
#ifndef SHAPING_H
#define SHAPING_H

#include "reference.h"

/* Vertices - edges + elements of a list whose rows are fit; elements may meet in any way. */
int64_t counted_shape(uint32_t n, struct slice elements);

/* An answer with this number in both of its numbers together. */
struct answer gives_signed(int64_t number);

/* of the mesh n and the element list */
struct answer reference_shape(const struct mesh *mesh, struct slice work);

#endif
