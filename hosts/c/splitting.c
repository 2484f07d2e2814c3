#include "splitting.h"

#include <stddef.h>
#include <string.h>

enum { MOST = 1000000 };

/* ---- the rows ---- */

static void put_over(uint32_t *row, uint32_t corner, uint32_t v) {
    for (int i = 0; i < 3; i++)
        if (row[i] == corner)
            row[i] = v;
}

/* The triangle of a side keeps its origin, with v for the destination; one with v for the origin is appended. */
static void halve(struct draft *draft, struct met side, uint32_t v) {
    uint32_t *appended = draft->list.at + draft->list.len;
    memcpy(appended, side.row, 4 * sizeof *appended);
    put_over(side.row, side.to, v);
    put_over(appended, side.from, v);
    draft->list.len += 4;
}

static uint32_t split_rows(struct draft *draft, const struct lent *lent, uint32_t k, uint32_t code) {
    struct edge edge;
    uint32_t refusal = find_edge(draft->list, k, code, &edge);
    if (refusal != 0)
        return refusal;
    int on_border = edge.partner.row == NULL;
    size_t n = (size_t)draft->n + 1, m = draft->list.len / 4 + (on_border ? 1 : 2);
    if (n > MOST || m > MOST || !has_room(lent, n, m))
        return 19;
    draft->n++;
    halve(draft, edge.side, draft->n);
    if (!on_border)
        halve(draft, edge.partner, draft->n);
    return 0;
}

/* ---- the point ---- */

static double number_of(struct slice points, uint32_t v, size_t i) {
    double number;
    memcpy(&number, points.at + ENTRIES_OF_A_POINT * (size_t)(v - 1) + 2 * i, sizeof number);
    return number;
}

static void place_midpoint(struct slice points, uint32_t a, uint32_t b, uint32_t v) {
    for (size_t i = 0; i < 3; i++) {
        double sum = number_of(points, a, i) + number_of(points, b, i), half = sum * 0.5;
        memcpy(points.at + ENTRIES_OF_A_POINT * (size_t)(v - 1) + 2 * i, &half, sizeof half);
    }
}

/* The side that was named ends at the new vertex now, and the one in its place in the first row appended begins
   there. */
struct answer reference_split(const struct lent *lent, uint32_t code) {
    uint32_t m = lent->size[1];
    struct answer answer = edited(lent, split_rows, code);
    if (answer.refusal != 0)
        return answer;
    struct slice list = {lent->elements.at, 4 * (size_t)lent->size[1]};
    struct met first = side_with_code(list, code), last = side_with_code(list, 8 * (m + 1) + code % 8);
    place_midpoint(lent->points, first.from, last.to, lent->size[0]);
    return answer;
}
