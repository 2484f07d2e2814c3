/* What the columns of E2e decide: the call that counts them, queries that are told them, and recovery, which is told m
   and takes E2e in three columns or four. */
#ifndef COLUMNS_H
#define COLUMNS_H

#include "meshes.h"

/* Every pattern of triangles and quadrilaterals in short lists, and one quadrilateral anywhere in the longest. */
void columns_of_lists(struct dice *dice);

/* Queries told 0, 3, 4 and other numbers, E2e being of every length that one of them would ask for. */
void told_columns(struct dice *dice);

/* Recovery told the right m and others, E2e being of every length; lists of different m with the same tables. */
void recovery_told_m(struct dice *dice);

/* The time of a query that is told the columns doesn't grow with the list. */
void time_of_told_columns(struct dice *dice);

#endif
