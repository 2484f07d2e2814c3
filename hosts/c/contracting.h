/* Contracting an edge, once more, by other means than the kernel's: neighbours are marks on vertices, uses are counted,
   rows are popped off the end into the gaps, and a table of numbers says what each vertex is called afterwards. */
#ifndef CONTRACTING_H
#define CONTRACTING_H

#include "editing.h"

struct answer reference_contract(const struct lent *lent, uint32_t code);

#endif
