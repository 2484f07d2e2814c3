/* Lists of as many vertices as there can be, most of which no element uses. */
#ifndef SPARE_H
#define SPARE_H

#include "meshes.h"

/* With no element and with few: building, recovery, queries of used and of spare vertices, and refusals. */
void many_spare_vertices(struct dice *dice);

/* Building and recovery take time linear in n + m: with no element, with one, and with half of the vertices used. */
void time_of_spare_vertices(struct dice *dice);

#endif
