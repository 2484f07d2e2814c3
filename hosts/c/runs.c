#include "runs.h"

#include "borzhanu.h"
#include "room.h"
#include "shaping.h"

#include <stdlib.h>
#include <string.h>

static uint32_t sides_in(const struct list *list) {
    uint32_t sides = 0;
    for (size_t f = 0; f < list->m; f++)
        sides += corners_of(list->rows + 4 * f);
    return sides;
}

/* The list as it is now, in the run's buffer. */
static struct list list_now(const struct run *run) {
    return (struct list){run->size[0], run->size[1], run->size[1], run->call.given[ELEMENTS].at};
}

static int64_t number_now(const struct run *run) {
    return counted_shape(run->size[0], (struct slice){run->call.given[ELEMENTS].at, 4 * (size_t)run->size[1]});
}

static void put_entries(struct slice to, struct slice from) {
    if (from.len != 0)
        memcpy(to.at, from.at, from.len * sizeof(uint32_t));
}

void start_run(struct run *run, const struct list *list, struct room room, struct dice *dice) {
    struct mesh t;
    if (!built(list, &t))
        exit(2);
    size_t b2e_len = t.b2e.len + below(dice, room.vertices + 2);
    run->call = edit_with_points(&split_call, list, room, b2e_len, run->size, 0, dice);
    lengthen_any(&run->call, dice);
    run->k = (uint32_t)t.b2e.len;
    run->edges = (sides_in(list) + run->k) / 2;
    run->number = number_now(run);
    put_entries(run->call.given[V2E], t.v2e);
    put_entries(run->call.given[E2E], t.e2e);
    put_entries(run->call.given[B2E], t.b2e);
    drop_tables(&t);
}

void drop_run(struct run *run) {
    drop_buffers(&run->call);
}

uint32_t any_code(const struct run *run, struct dice *dice) {
    if (below(dice, 8) == 0)
        return below(dice, borzhanu_border(run->size[0] + 3));
    if (run->k != 0 && below(dice, 4) == 0)
        return run->call.given[B2E].at[below(dice, run->k)];
    return borzhanu_side(1 + below(dice, run->size[1]), 1 + below(dice, 3));
}

/* ---- one edit ---- */

/* The mesh as it is now, in buffers of its own. */
static struct mesh mesh_of_run(const struct run *run) {
    return mesh_left(run->call.given, run->k);
}

static borzhanu_mesh asked(const struct mesh *t) {
    return (borzhanu_mesh){t->n, t->columns, t->elements.at, t->elements.len, t->v2e.at, t->v2e.len,
                           t->e2e.at, t->e2e.len, t->b2e.at, t->b2e.len};
}

/* By counting, and by the call. */
static void check_kept(const struct run *run) {
    struct list list = list_now(run);
    struct call shape = shape_of(&list);
    if (number_now(run) != run->number)
        mismatch("an edit changed the number of the shape");
    compare_answer(&shape, gives_signed(run->number));
}

/* The buffers then hold what the edit left; where it was refused, that is what they held. */
static struct answer edit_run(struct run *run, const struct exported *exported, uint32_t code) {
    struct slice results[ROLES];
    run->call.exported = exported;
    run->call.number = code;
    struct answer answer = counted(compare(&run->call, results));
    for (int role = 0; role < ROLES; role++)
        if (exported->writes >> role & 1)
            put_entries(run->call.given[role], results[role]);
    check_kept(run);
    return answer;
}

/* The buffers hold this list, with its tables. */
static void check_run(const struct run *run, const struct list *list) {
    struct mesh left = mesh_of_run(run);
    check_left(&left, list);
    drop_tables(&left);
}

/* An edit that makes another number of edges, and on a border of borders, by as many as that. */
static struct answer edit_size(struct run *run, const struct exported *exported, uint32_t code,
                               struct list (*by_queries)(const struct mesh *t, uint32_t side), int grows) {
    struct mesh old = mesh_of_run(run);
    uint32_t m = run->size[1];
    struct answer answer = edit_run(run, exported, code);
    if (answer.refusal == 0) {
        struct list list = by_queries(&old, code);
        int inner = list.m == (size_t)(m + 2 * (uint32_t)grows);
        if (answer.first != run->k + (uint32_t)(inner ? 0 : grows) ||
            answer.second != run->edges + (uint32_t)(inner ? 3 * grows : 2 * grows))
            fail("the edit changed k or the number of edges otherwise than it must");
        run->k = answer.first;
        run->edges = answer.second;
        check_run(run, &list);
        drop_list(&list);
    }
    drop_tables(&old);
    return answer;
}

/* ---- by means of the queries ---- */

static struct list copied_list(const struct mesh *t, size_t room) {
    struct list old = list_of(t), list = empty_list(t->n, old.m + room);
    add_rows(&list, &old);
    return list;
}

/* The row of a side split at v, where the corners are found by what the queries say. */
static void split_row(struct list *list, uint32_t side, uint32_t v) {
    uint32_t *row = list->rows + 4 * (borzhanu_element_of(side) - 1), i = borzhanu_number_of(side) - 1;
    uint32_t corners[4];
    memcpy(corners, row, sizeof corners);
    row[(i + 1) % 3] = v;
    corners[i] = v;
    add_row(list, corners[0], corners[1], corners[2], corners[3]);
}

static struct list split_by_queries(const struct mesh *t, uint32_t side) {
    const borzhanu_mesh mesh = asked(t);
    uint32_t opposite = borzhanu_first(borzhanu_mesh_opposite(&mesh, side));
    struct list list = copied_list(t, 2);
    list.n++;
    split_row(&list, side, list.n);
    if (!borzhanu_is_border_code(opposite))
        split_row(&list, opposite, list.n);
    return list;
}

/* Another number for a vertex in the elements about `centre`. */
static void rename_about(struct list *list, const borzhanu_mesh *mesh, uint32_t centre, uint32_t v, uint32_t number) {
    uint32_t *ring = room_for(list->m, sizeof *ring);
    uint32_t count = borzhanu_first(borzhanu_mesh_ring(mesh, centre, ring, list->m));
    for (uint32_t i = 0; i < count; i++)
        for (uint32_t *row = list->rows + 4 * (ring[i] - 1), *corner = row; corner != row + 4; corner++)
            if (*corner == v)
                *corner = number;
    free(ring);
}

static void close_gap(struct list *list, uint32_t f) {
    list->m--;
    memmove(list->rows + 4 * (f - 1), list->rows + 4 * list->m, 4 * sizeof *list->rows);
}

/* b becomes a in its ring; the last vertex becomes b, where it was before and where it has just come. */
static struct list contracted_by_queries(const struct mesh *t, uint32_t side) {
    const borzhanu_mesh mesh = asked(t);
    uint32_t a = borzhanu_first(borzhanu_mesh_origin(&mesh, side));
    uint32_t b = borzhanu_first(borzhanu_mesh_destination(&mesh, side));
    uint32_t f = borzhanu_element_of(side), g = borzhanu_first(borzhanu_mesh_across(&mesh, side));
    struct list list = copied_list(t, 0);
    rename_about(&list, &mesh, b, b, a);
    rename_about(&list, &mesh, b, list.n, b);
    rename_about(&list, &mesh, list.n, list.n, b);
    list.n--;
    close_gap(&list, f > g ? f : g);
    if (g != 0)
        close_gap(&list, f > g ? g : f);
    return list;
}

/* ---- the edits ---- */

/* That the diagonal is the other one is shown by runs of swaps. */
struct answer swap_in_run(struct run *run, uint32_t code) {
    struct answer answer = edit_run(run, &swap_call, code);
    struct list list = list_now(run);
    if (answer.refusal == 0)
        check_run(run, &list);
    return answer;
}

struct answer split_in_run(struct run *run, uint32_t code) {
    return edit_size(run, &split_call, code, split_by_queries, 1);
}

struct answer contract_in_run(struct run *run, uint32_t code) {
    return edit_size(run, &contract_call, code, contracted_by_queries, -1);
}

struct answer edit_any(struct run *run, struct dice *dice) {
    uint32_t code = any_code(run, dice), kind = below(dice, 5);
    if (kind < 2)
        return contract_in_run(run, code);
    return kind < 4 ? split_in_run(run, code) : swap_in_run(run, code);
}
