/* Holes, of housings with many openings and of tables whose rims were joined, parted and broken. */
#ifndef HOLES_H
#define HOLES_H

#include "meshes.h"

/* Housings whose openings are known; then any housings, disguised, and their tables damaged: rims join or come apart,
   run into each other, or come to an entry that names nothing. */
void openings_of_housings(struct dice *dice);

/* The time is linear in n + m + k, with a rim of a million and with a million rims, also where the last of them runs
   into another or into its own middle. */
void time_of_holes(struct dice *dice);

#endif
