#include "swapping.h"

#include <stddef.h>

static void set_triangle(uint32_t *row, uint32_t a, uint32_t b, uint32_t c) {
    row[0] = a;
    row[1] = b;
    row[2] = c;
    row[3] = 0;
}

static uint32_t swap_rows(struct draft *draft, const struct lent *lent, uint32_t k, uint32_t code) {
    struct edge edge;
    (void)lent;
    uint32_t refusal = find_edge(draft->list, k, code, &edge);
    if (refusal != 0)
        return refusal;
    if (edge.partner.row == NULL)
        return 15;
    uint32_t c = corner_apart(edge.side), d = corner_apart(edge.partner);
    set_triangle(edge.side.row, c, edge.side.from, d);
    set_triangle(edge.partner.row, d, edge.side.to, c);
    return 0;
}

struct answer reference_swap(const struct lent *lent, uint32_t code) {
    return edited(lent, swap_rows, code);
}
