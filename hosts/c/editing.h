/* What the references of edits have in common: the way of every edit, and sides that are found by reading the list. */
#ifndef EDITING_H
#define EDITING_H

#include "reference.h"

/* What an edit is lent: n and m, and buffers that may be longer than what they hold. */
struct lent {
    uint32_t *size;
    struct slice elements, v2e, e2e, b2e, work;
    int with_points;
    struct slice points; /* each double as two entries */
};

enum { ENTRIES_OF_A_POINT = 6 };

/* A list that is edited, with room for two rows more. */
struct draft {
    uint32_t n;
    struct slice list;
};

/* Whether every buffer but B2e is long enough for n vertices and m elements, in the columns of the list that is held. */
int has_room(const struct lent *lent, size_t n, size_t m);

/* Changes the draft, an accepted list with k borders, or returns a refusal. */
typedef uint32_t edit(struct draft *draft, const struct lent *lent, uint32_t k, uint32_t code);

/* Checks 1 and 2, the old list judged by building, the edit, and the new list built into the buffers lent, which gets 9
   too; what list and tables took more before is 0 then. What a refusal leaves is as it was, but for the work buffer. */
struct answer edited(const struct lent *lent, edit *edit, uint32_t code);

/* A side as it is met when the list is read: its row, and the corners that it joins. No row: it isn't there. */
struct met {
    uint32_t *row;
    uint32_t from, to;
};

/* Reads all sides, counting their codes up, until one has this code. */
struct met side_with_code(struct slice list, uint32_t code);
/* Reads all sides until one runs between these two corners. */
struct met side_between(struct slice list, uint32_t from, uint32_t to);

/* The two sides of an edge; on a border the partner isn't there. */
struct edge {
    struct met side, partner;
};

/* The edge of the side with this code, in a list with k borders. Returns 11 where the code isn't there, and 15 where it
   is a border's or where an element beside the edge is a quadrilateral. */
uint32_t find_edge(struct slice list, uint32_t k, uint32_t code, struct edge *edge);
/* The corner of a triangle that isn't on this side. */
uint32_t corner_apart(struct met side);

#endif
