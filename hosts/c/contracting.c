#include "contracting.h"

#include "room.h"

#include <stdlib.h>
#include <string.h>

static uint32_t corners_in(const uint32_t *row) {
    return row[3] == 0 ? 3 : 4;
}

/* ---- 20 ---- */

enum { NEAR_A = 1, NEAR_B = 2, EXCUSED = 4 };

/* What a vertex is marked with by an edge that joins it to `other`. */
static unsigned char mark_by(uint32_t other, uint32_t a, uint32_t b) {
    return (unsigned char)((other == a ? NEAR_A : 0) | (other == b ? NEAR_B : 0));
}

static void mark_neighbours(struct slice list, uint32_t a, uint32_t b, unsigned char *marks) {
    for (const uint32_t *row = list.at; row != list.at + list.len; row += 4)
        for (uint32_t i = 0, corners = corners_in(row); i < corners; i++) {
            uint32_t from = row[i], to = row[(i + 1) % corners];
            marks[from] |= mark_by(to, a, b);
            marks[to] |= mark_by(from, a, b);
        }
}

static int is_pinched(const struct draft *draft, const struct edge *edge) {
    unsigned char *marks = room_for(draft->n + 1, sizeof *marks);
    int found = 0;
    mark_neighbours(draft->list, edge->side.from, edge->side.to, marks);
    marks[corner_apart(edge->side)] |= EXCUSED;
    if (edge->partner.row != NULL)
        marks[corner_apart(edge->partner)] |= EXCUSED;
    for (uint32_t v = 1; v <= draft->n; v++)
        found |= marks[v] == (NEAR_A | NEAR_B);
    free(marks);
    return found;
}

/* ---- rows ---- */

/* The last row is popped, and put over the one that goes. */
static void take_out(struct draft *draft, uint32_t *row) {
    draft->list.len -= 4;
    memmove(row, draft->list.at + draft->list.len, 4 * sizeof *row);
}

/* The higher-numbered first: were it the other way round, the higher one might be the row that is moved. */
static void take_out_edge(struct draft *draft, const struct edge *edge) {
    uint32_t *first = edge->side.row, *second = edge->partner.row;
    if (second == NULL) {
        take_out(draft, first);
    } else {
        take_out(draft, first > second ? first : second);
        take_out(draft, first > second ? second : first);
    }
}

/* ---- 21 ---- */

/* How often each vertex is a corner. */
static uint32_t *uses_in(const struct draft *draft) {
    uint32_t *uses = room_for(draft->n + 1, sizeof *uses);
    for (const uint32_t *row = draft->list.at; row != draft->list.at + draft->list.len; row += 4)
        for (uint32_t i = 0; i < corners_in(row); i++)
            uses[row[i]]++;
    return uses;
}

/* Some vertex other than b has lost all its uses, those of b counted for a. */
static int is_stranded(uint32_t n, const uint32_t *before, const uint32_t *after, uint32_t a, uint32_t b) {
    int found = 0;
    for (uint32_t v = 1; v <= n; v++)
        found |= v != b && before[v] != 0 && after[v] == 0 && (v != a || after[b] == 0);
    return found;
}

/* ---- numbers ---- */

/* The last vertex gets number b, and b whatever a is called then. */
static void rename_corners(struct draft *draft, uint32_t a, uint32_t b) {
    uint32_t *number = room_for(draft->n + 1, sizeof *number);
    for (uint32_t v = 0; v <= draft->n; v++)
        number[v] = v;
    number[draft->n] = b;
    number[b] = number[a];
    for (size_t i = 0; i < draft->list.len; i++)
        draft->list.at[i] = number[draft->list.at[i]];
    free(number);
    draft->n--;
}

static uint32_t contract_rows(struct draft *draft, const struct lent *lent, uint32_t k, uint32_t code) {
    struct edge edge;
    (void)lent;
    uint32_t refusal = find_edge(draft->list, k, code, &edge);
    if (refusal != 0)
        return refusal;
    if (is_pinched(draft, &edge))
        return 20;
    uint32_t *before = uses_in(draft);
    take_out_edge(draft, &edge);
    uint32_t *after = uses_in(draft);
    int stranded = is_stranded(draft->n, before, after, edge.side.from, edge.side.to);
    free(before);
    free(after);
    if (stranded)
        return 21;
    rename_corners(draft, edge.side.from, edge.side.to);
    return 0;
}

/* ---- the points ---- */

static uint32_t *point_of(struct slice points, uint32_t v) {
    return points.at + ENTRIES_OF_A_POINT * (size_t)(v - 1);
}

/* Where the list that is lent has this side, the vertex where it ends. */
static uint32_t end_of(const struct lent *lent, uint32_t code) {
    struct slice list = {lent->elements.at, 4 * (size_t)lent->size[1]};
    return list.len <= lent->elements.len ? side_with_code(list, code).to : 0;
}

struct answer reference_contract(const struct lent *lent, uint32_t code) {
    uint32_t last = lent->size[0], b = end_of(lent, code);
    struct answer answer = edited(lent, contract_rows, code);
    if (answer.refusal != 0)
        return answer;
    memmove(point_of(lent->points, b), point_of(lent->points, last), ENTRIES_OF_A_POINT * sizeof(uint32_t));
    memset(point_of(lent->points, last), 0, ENTRIES_OF_A_POINT * sizeof(uint32_t));
    return answer;
}
