/* The loops of a map that sends each of the numbers 1 to k to one of them, or to 0, which is none: found in two
   ways. */
#ifndef LOOPS_H
#define LOOPS_H

#include <stddef.h>
#include <stdint.h>

/* The loop of each number into `loop`, loops being numbered from 1 by their least number. Returns 0 where the map, from
   one of the numbers on, doesn't come back to it. Every number's loop is followed to its end. */
int loops_by_walks(const uint32_t *next, size_t k, uint32_t *loop);

/* The same, in time nearly linear in k: a number and the next one belong to one set, and all come back exactly where
   each is sent to a number of its own. */
int loops_by_sets(const uint32_t *next, size_t k, uint32_t *loop);

#endif
