/* Edges split at their midpoints: worked out by hand, of every code, in runs until the buffers are full, and in buffers
   of every length. */
#ifndef SPLITS_H
#define SPLITS_H

#include "meshes.h"

/* Splits and refusals that were worked out by hand: each cause of 11 and of 15, and what is said of the old list before
   any code is looked at. */
void known_splits(struct dice *dice);

/* The new point of every two of the numbers that are hard to add or to halve; some worked out by hand. */
void midpoints(struct dice *dice);

/* Every code that a small list could have, and codes far above, on sound lists and on damaged ones. */
void splits_of_every_code(struct dice *dice);

/* One split after another in the same buffers, until these are full, with swaps between them: on housings with and
   without borders, with and without quadrilaterals. What each leaves is what building gives of a copy that was edited by
   means of the queries. */
void runs_of_splits(struct dice *dice);

/* Each buffer too short for the old mesh, long enough for it but not for the new one, and longer; lengths past 32 bits;
   empty buffers. */
void lengths_of_splits(struct dice *dice);

/* n and m at their largest, just below and past it, in linear time. */
void largest_splits(struct dice *dice);

#endif
