/* Element lists in which two elements share more than a corner or an edge, and others in which they nearly do. */
#ifndef PILLOWS_H
#define PILLOWS_H

#include "meshes.h"

/* What lies about vertex 1 between ribs, which are vertices from 3 on, each joined to it; a letter for each gap:
     W  a quadrilateral from 1 to 2
     A  two triangles, at 1 and at 2, on an edge across the gap
     L  two triangles on an edge along the gap, from 1 to 2
     P  a quadrilateral from 1 to a vertex of its own
     T  a triangle at 1
   Closed, there is a gap from the last rib back to the first. Every W has the diagonal from 1 to 2. */
struct list slices(const char *pattern, int closed);

/* A polygon cut into triangles and quadrilaterals, without inner vertices, and its other face, cut for itself. */
struct list pillow(uint32_t corners, struct dice *dice);

/* Two sheets on one rim: a closed surface. Quadrilaterals at its corners share three vertices. */
struct list cushion(uint32_t width, uint32_t height, enum kinds kinds, struct dice *dice);

/* One of these, of up to about `size` elements. */
struct list any_pillow(struct dice *dice, uint32_t size);

/* A triangle and one beside it made a quadrilateral, where the row chosen is such a triangle. */
void join_triangles(struct list *list, struct dice *dice);

#endif
