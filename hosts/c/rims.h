/* What must hold of holes, seen from outside: by the border loops that the archive lists of the same tables. Where it
   doesn't hold, this is printed and ends the program. */
#ifndef RIMS_H
#define RIMS_H

#include "reference.h"

/* The lengths add up to k; and the loop of a border half-edge has its hole's length and lists exactly those with the
   same hole. Of many border half-edges the loop of the least of each hole is listed, else that of every one. */
void check_rims(const struct mesh *t, uint32_t holes, struct slice hole, struct slice lengths);

#endif
