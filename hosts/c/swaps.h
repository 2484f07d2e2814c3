/* Swapped diagonals: worked out by hand, of every code, in long runs, and in buffers of every length. */
#ifndef SWAPS_H
#define SWAPS_H

#include "meshes.h"

/* Swaps and refusals that were worked out by hand: each cause of 11 and of 15, what is said of the old list before any
   code is looked at, and what is said of the new one. */
void known_swaps(struct dice *dice);

/* Every code that a small list could have, and codes far above, on sound lists and on damaged ones. */
void swaps_of_every_code(struct dice *dice);

/* One swap after another, each lent what the one before left: on housings with and without borders, with and without
   quadrilaterals. What each leaves is what building gives of a copy that was edited by means of the queries; now and
   then the new diagonal is swapped as well, which brings back the old one. */
void runs_of_swaps(struct dice *dice);

/* Buffers that are longer, each by itself and together, or too short; lengths past 32 bits; empty buffers. */
void lengths_of_swaps(struct dice *dice);

/* n and m at their largest and past it, in linear time. */
void largest_swaps(struct dice *dice);

#endif
