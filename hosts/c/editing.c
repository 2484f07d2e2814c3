#include "editing.h"

#include "room.h"

#include <stdlib.h>
#include <string.h>

enum { MOST = 1000000, ROWS_MORE = 2 };

static struct answer refused(uint32_t refusal) {
    return (struct answer){refusal, 0, 0};
}

static struct slice first_entries(struct slice s, size_t len) {
    return (struct slice){s.at, len};
}

/* ---- what is lent ---- */

static struct slice held_list(const struct lent *lent) {
    return first_entries(lent->elements, 4 * (size_t)lent->size[1]);
}

int has_room(const struct lent *lent, size_t n, size_t m) {
    if (lent->elements.len < 4 * m || lent->v2e.len < n || lent->work.len < n + 16 * m)
        return 0;
    if (lent->with_points && lent->points.len < ENTRIES_OF_A_POINT * n)
        return 0;
    return lent->e2e.len >= columns_of(held_list(lent)) * m;
}

static uint32_t check_lent(const struct lent *lent) {
    size_t n = lent->size[0], m = lent->size[1];
    if (n > MOST || m > MOST)
        return 1;
    return has_room(lent, n, m) ? 0 : 2;
}

/* ---- the old list ---- */

static struct draft draft_of(const struct lent *lent) {
    struct slice held = held_list(lent);
    struct draft draft = {lent->size[0], {room_for(held.len + 4 * ROWS_MORE, sizeof(uint32_t)), held.len}};
    if (held.len != 0)
        memcpy(draft.list.at, held.at, held.len * sizeof(uint32_t));
    return draft;
}

/* What building says of a list, with room in B2e, in tables of its own. */
static struct answer judged(const struct draft *draft, struct slice work) {
    uint32_t n = draft->n;
    struct slice list = draft->list;
    size_t e2e_len = columns_of(list) * (list.len / 4);
    uint32_t *all = room_for(n + e2e_len + list.len, sizeof *all);
    struct mesh mesh = {n, 0, list, {all, n}, {all + n, e2e_len}, {all + n + e2e_len, list.len}};
    struct answer answer = reference_build(&mesh, work);
    free(all);
    return answer;
}

/* ---- the new list ---- */

static void clear_between(struct slice s, size_t start, size_t end) {
    for (size_t i = start; i < end; i++)
        s.at[i] = 0;
}

/* Building writes the tables into the buffers lent, or nothing. */
static struct answer build_lent(const struct lent *lent, const struct draft *draft) {
    uint32_t n = draft->n;
    struct slice list = draft->list, held = held_list(lent);
    size_t old_e2e_len = columns_of(held) * (held.len / 4), e2e_len = columns_of(list) * (list.len / 4);
    struct mesh mesh = {n, 0, list, first_entries(lent->v2e, n), first_entries(lent->e2e, e2e_len), lent->b2e};
    struct answer answer = reference_build(&mesh, lent->work);
    if (answer.refusal != 0)
        return answer;
    if (list.len != 0)
        memcpy(lent->elements.at, list.at, list.len * sizeof(uint32_t));
    clear_between(lent->elements, list.len, held.len);
    clear_between(lent->v2e, n, lent->size[0]);
    clear_between(lent->e2e, e2e_len, old_e2e_len);
    lent->size[0] = n;
    lent->size[1] = (uint32_t)(list.len / 4);
    return answer;
}

struct answer edited(const struct lent *lent, edit *edit, uint32_t code) {
    uint32_t refusal = check_lent(lent);
    if (refusal != 0)
        return refused(refusal);
    struct draft draft = draft_of(lent);
    struct answer answer = judged(&draft, lent->work);
    if (answer.refusal == 0) {
        refusal = edit(&draft, lent, answer.first, code);
        answer = refusal != 0 ? refused(refusal) : build_lent(lent, &draft);
    }
    free(draft.list.at);
    return answer;
}

/* ---- sides ---- */

static struct met met_at(uint32_t *row, uint32_t i) {
    uint32_t corners = row[3] == 0 ? 3 : 4;
    return i <= corners ? (struct met){row, row[i - 1], row[i % corners]} : (struct met){NULL, 0, 0};
}

struct met side_with_code(struct slice list, uint32_t code) {
    uint32_t counted = 8;
    for (uint32_t *row = list.at; row != list.at + list.len; row += 4, counted += 8)
        for (uint32_t i = 1; i <= 4; i++)
            if (counted + i == code)
                return met_at(row, i);
    return (struct met){NULL, 0, 0};
}

struct met side_between(struct slice list, uint32_t from, uint32_t to) {
    for (uint32_t *row = list.at; row != list.at + list.len; row += 4)
        for (uint32_t i = 1; i <= 4; i++) {
            struct met met = met_at(row, i);
            if (met.row != NULL && met.from == from && met.to == to)
                return met;
        }
    return (struct met){NULL, 0, 0};
}

static int is_border_among(uint32_t k, uint32_t code) {
    return code % 8 == 0 && code / 8 >= 1 && code / 8 <= k;
}

/* What isn't there is none. */
static int is_quadrilateral(struct met side) {
    return side.row != NULL && side.row[3] != 0;
}

uint32_t find_edge(struct slice list, uint32_t k, uint32_t code, struct edge *edge) {
    if (is_border_among(k, code))
        return 15;
    edge->side = side_with_code(list, code);
    if (edge->side.row == NULL)
        return 11;
    edge->partner = side_between(list, edge->side.to, edge->side.from);
    return is_quadrilateral(edge->side) || is_quadrilateral(edge->partner) ? 15 : 0;
}

uint32_t corner_apart(struct met side) {
    uint32_t i = 0;
    while (side.row[i] == side.from || side.row[i] == side.to)
        i++;
    return side.row[i];
}
