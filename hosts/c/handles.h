/* Housings whose number of shape is known by the way they are made. */
#ifndef HANDLES_H
#define HANDLES_H

#include "meshes.h"

/* A list, and vertices - edges + elements of it. */
struct shaped {
    struct list list;
    int64_t number;
};

/* A plate with windows in across x along places, in each of them or here and there. */
struct shaped windowed(uint32_t across, uint32_t along, int everywhere, enum kinds kinds, struct dice *dice);

/* The surface of a box of so many cells. */
struct shaped box(uint32_t width, uint32_t height, uint32_t depth, enum kinds kinds, struct dice *dice);

/* The surface of a thick plate with across x along shafts through it: as many handles. */
struct shaped pierced(uint32_t across, uint32_t along, uint32_t depth, enum kinds kinds, struct dice *dice);

/* The second housing beside the first; it is dropped. */
void put_beside(struct shaped *housing, struct shaped other);
/* As add_spare. */
void put_spare(struct shaped *housing, uint32_t after, uint32_t count);

/* One of these, a plate, a tube, a ring, a fan or a bipyramid, of up to about `size` elements. */
struct shaped any_piece(struct dice *dice, uint32_t size);
/* Up to four of them, with and without spare vertices. */
struct shaped any_shaped(struct dice *dice, uint32_t size);

#endif
