/* Sibling half-edges, of lists in which three plates or more meet at an edge. */
#ifndef SIBLINGS_H
#define SIBLINGS_H

#include "meshes.h"

/* Maps and numbers of plates that are known, every length one too short and one too long, and unfit corners in the last
   of a million rows; then any of these lists, disguised, with plates that are there twice, and damaged. */
void edges_of_plates(struct dice *dice);

/* The time is linear in n + m, also with a million sides on an edge or about a vertex. */
void time_of_siblings(struct dice *dice);

#endif
