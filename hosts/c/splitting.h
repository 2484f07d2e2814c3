/* Splitting an edge at its midpoint, once more, by other means than the kernel's: the partner is looked for row by row,
   rows are copied and the new vertex put over one of their corners, and both lists are judged by building. */
#ifndef SPLITTING_H
#define SPLITTING_H

#include "editing.h"

struct answer reference_split(const struct lent *lent, uint32_t code);

#endif
