/* The number of a housing's shape, of housings made so that it is known. */
#ifndef SHAPES_H
#define SHAPES_H

#include "meshes.h"

/* Numbers and refusals that were worked out by hand. */
void known_shapes(struct dice *dice);

/* Plates, tubes, rings, boxes, plates with windows and solids with shafts, by themselves and together, with and without
   spare vertices, disguised: the number is that which they were made with. Then damaged ones. */
void shapes_of_housings(struct dice *dice);

/* Swaps, splits and contractions one after another, on housings with windows and shafts, of several pieces. */
void shapes_in_runs(struct dice *dice);

/* The work buffer of every length up to the least one, and longer; list and work both longer or shorter. */
void lengths_of_shapes(struct dice *dice);

/* n and m at their largest, numbers far below 0 and far above, and lists that are refused, in linear time. */
void largest_shapes(struct dice *dice);

#endif
