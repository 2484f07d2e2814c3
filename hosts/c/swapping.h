/* Swapping the diagonal of two triangles, once more, by other means than the kernel's: the partner is looked for row by
   row, and both lists are judged by building. */
#ifndef SWAPPING_H
#define SWAPPING_H

#include "editing.h"

struct answer reference_swap(const struct lent *lent, uint32_t code);

#endif
