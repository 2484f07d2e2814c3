/* Contracted edges: worked out by hand, of every code, in runs among splits and swaps, down to what can't be contracted
   any more, and in buffers of every length. */
#ifndef CONTRACTS_H
#define CONTRACTS_H

#include "meshes.h"

/* Contractions and refusals that were worked out by hand: which row and which vertex take the freed numbers, each cause
   of 11, 15, 20 and 21, what is said of the old list before any code is looked at, and what is said of the new one.
   Points of every kind keep their bits. */
void known_contracts(struct dice *dice);

/* Every code that a small list could have, and codes far above, on sound lists and on damaged ones. */
void contracts_of_every_code(struct dice *dice);

/* Swaps, splits and contractions one after another in the same buffers: on housings with and without borders, with and
   without quadrilaterals. What each leaves is what building gives of a copy that was edited by means of the queries. */
void runs_of_contracts(struct dice *dice);

/* A split taken back by the contraction of the same code: n, m, list and tables are as they were before both, and so
   are all points, bit for bit. */
void splits_taken_back(struct dice *dice);

/* Contractions until each side is refused: a closed housing has become a tetrahedron, one with a border a triangle. */
void contracts_to_the_last(struct dice *dice);

/* Each buffer too short, just long enough and longer; lengths past 32 bits; empty buffers. */
void lengths_of_contracts(struct dice *dice);

/* n and m at their largest, and a vertex in as many elements as there can be, in linear time. */
void largest_contracts(struct dice *dice);

#endif
