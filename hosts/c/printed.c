#include "printed.h"

#include "asking.h"
#include "borzhanu.h"
#include "cases.h"
#include "room.h"

#include <stdio.h>
#include <stdlib.h>
#include <string.h>

static void fail_case(const char *name, const char *what) {
    printf("MISMATCH: case '%s': %s isn't as printed\n", name, what);
    stop();
}

static void check_printed(const char *name, const char *what, const uint32_t *printed, struct slice got) {
    if (got.len != 0 && memcmp(printed, got.at, got.len * sizeof *printed) != 0)
        fail_case(name, what);
}

static int answers(struct answer answer, uint32_t first) {
    return answer.refusal == 0 && answer.first == first;
}

static void check_columns(const struct build_case *c, const struct list *list) {
    struct call call = look_at(list);
    if (!answers(compare(&call, NULL), c->columns))
        fail_case(c->name, "the number of columns");
}

static struct mesh tables_of_case(const struct build_case *c) {
    struct list list = empty_list(c->n, c->m);
    for (uint32_t f = 0; f < c->m; f++)
        add_row(&list, c->rows[f][0], c->rows[f][1], c->rows[f][2], c->rows[f][3]);
    check_columns(c, &list);
    try_siblings(&list, NULL);
    struct call call = build_of(&list, CASE_BORDERS + 1);
    call.given[E2E] = noise_of(E2E, c->columns * c->m);
    struct slice results[ROLES];
    struct answer answer = compare(&call, results);
    if (answer.refusal != c->refusal || answer.first != c->first || answer.second != c->second)
        fail_case(c->name, "the answer");
    results[B2E].len = answer.refusal == 0 ? answer.first : 0;
    if (answer.refusal == 0) {
        check_printed(c->name, "V2e", c->v2e, results[V2E]);
        check_printed(c->name, "E2e", c->e2e, results[E2E]);
        check_printed(c->name, "B2e", c->b2e, results[B2E]);
    }
    struct mesh t = {c->n,
                     0,
                     copied(results[ELEMENTS]),
                     copied(results[V2E]),
                     copied(results[E2E]),
                     copied(results[B2E])};
    try_shape(&list, answer);
    drop_list(&list);
    return t;
}

static void check_list(const char *name, const struct exported *list, const struct mesh *t, uint32_t number,
                       const uint32_t *printed, uint32_t count) {
    struct call call = query_of(list, t, number);
    struct slice results[ROLES];
    call.given[OUT] = noise_of(OUT, CASE_BORDERS);
    if (!answers(compare(&call, results), count))
        fail_case(name, list->name);
    check_printed(name, list->name, printed, (struct slice){results[OUT].at, count});
}

static void check_list_case(const struct list_case *c, const struct mesh *t) {
    const struct exported *lists[] = {&vertex_lists[0], &vertex_lists[1], &border_list};
    for (size_t i = 0; i < COUNT(lists); i++)
        if (strcmp(lists[i]->name, c->query) == 0)
            check_list(c->build_case, lists[i], t, c->number, c->list, c->count);
}

/* The record when the walker starts, its elements, and 0 after them, twice. */
static void check_walk(const char *name, const struct mesh *t, uint32_t v, uint32_t start, const uint32_t *elements,
                       uint32_t count) {
    struct call call = query_of(&start_call, t, v);
    struct slice results[ROLES];
    uint32_t begun[RECORD_LENGTH] = {start, start, 0}, record[RECORD_LENGTH];
    if (!answers(compare(&call, results), 0) || memcmp(results[RECORD].at, begun, sizeof begun) != 0)
        fail_case(name, "a walker's start");
    call.exported = &step_call;
    call.given[RECORD] = (struct slice){record, RECORD_LENGTH};
    for (uint32_t i = 0; i < count + 2; i++) {
        memcpy(record, results[RECORD].at, sizeof record);
        if (!answers(compare(&call, results), i < count ? elements[i] : 0))
            fail_case(name, "a walker's element");
    }
}

static void check_vertex(const char *name, const struct mesh *t, uint32_t v, uint32_t kind) {
    struct call call = query_of(&vertex_test, t, v);
    if (!answers(compare(&call, NULL), kind))
        fail_case(name, vertex_test.name);
}

static void check_unused(const char *name, const struct mesh *t, uint32_t v) {
    check_vertex(name, t, v, BORZHANU_UNUSED);
    for (int i = 0; i < VERTEX_LISTS; i++)
        check_list(name, &vertex_lists[i], t, v, NULL, 0);
    check_walk(name, t, v, 0, NULL, 0);
}

static void check_vertex_case(const struct vertex_case *c, const struct mesh *t) {
    for (uint32_t v = 1; v <= t->n; v++) {
        check_vertex(c->build_case, t, v, c->kinds[v - 1]);
        if (c->kinds[v - 1] == BORZHANU_UNUSED)
            check_unused(c->build_case, t, v);
    }
}

static void check_refused(const char *name, struct call call, uint32_t refusal) {
    if (compare(&call, NULL).refusal != refusal)
        fail_case(name, call.exported->name);
}

static void check_hole_case(const struct hole_case *c, const struct mesh *t) {
    struct mesh exchanged = copied_tables(t);
    struct slice results[ROLES];
    if (c->exchanged[0] != 0)
        swap(&exchanged.v2e.at[c->exchanged[0] - 1], &exchanged.v2e.at[c->exchanged[1] - 1]);
    struct call call = holes_of(&exchanged);
    if (t->b2e.len != 0 && c->count == 0) {
        check_refused(c->build_case, call, 12);
    } else {
        if (!answers(compare(&call, results), c->count))
            fail_case(c->build_case, "the number of holes");
        check_printed(c->build_case, "the hole of each border", c->hole, results[HOLE]);
        results[LENGTHS].len = c->count;
        check_printed(c->build_case, "the length of each hole", c->lengths, results[LENGTHS]);
    }
    ask_holes(&exchanged);
    drop_tables(&exchanged);
}

static const struct exported *code_call(const char *name) {
    for (size_t i = 0; i < CODE_CALLS; i++)
        if (strcmp(code_calls[i].name, name) == 0)
            return &code_calls[i];
    exit(2);
}

static void check_zeroed_case(const struct zeroed_case *c, const struct mesh *t) {
    struct mesh zeroed = copied_tables(t);
    zeroed.v2e.at[c->vertex - 1] = 0;
    check_unused(c->build_case, &zeroed, c->vertex);
    if (c->border != 0) {
        check_refused(c->build_case, query_of(code_call("next"), &zeroed, borzhanu_border(c->border)), 12);
        check_refused(c->build_case, query_of(&border_list, &zeroed, c->border), 12);
    }
    check_refused(c->build_case, recovery_of(&zeroed), 10);
    drop_tables(&zeroed);
}

static void check_step(const struct figure *c, const struct mesh *t, const char *query, uint32_t i, uint32_t expected) {
    struct call call = query_of(code_call(query), t, borzhanu_side(c->element, i));
    if (!answers(compare(&call, NULL), borzhanu_side(c->element, expected)))
        fail_case(c->build_case, query);
}

static void check_figure(const struct figure *c, const struct mesh *t) {
    for (uint32_t i = 1; i <= c->sides; i++) {
        check_step(c, t, "next", i, c->next[i - 1]);
        check_step(c, t, "previous", i, c->previous[i - 1]);
    }
}

static void check_told_case(const struct told_case *c, const struct mesh *t) {
    struct mesh told = *t;
    told.columns = c->columns;
    told.e2e = (struct slice){(uint32_t *)c->e2e, c->columns * (t->elements.len / 4)};
    struct call call = query_of(code_call(c->query), &told, c->code);
    struct answer answer = compare(&call, NULL);
    if (answer.refusal != c->refusal || answer.first != c->first || answer.second != 0)
        fail_case(c->build_case, "a query told its columns");
}

static void check_recovery_case(const struct recovery_case *c) {
    struct slice v2e = {(uint32_t *)c->v2e, c->n}, e2e = {(uint32_t *)c->e2e, c->columns * c->m}, results[ROLES];
    struct mesh t = {c->n, 0, noise_of(ELEMENTS, 4 * c->m), v2e, e2e, noise_of(B2E, 0)};
    struct call call = recovery_of(&t);
    if (compare(&call, results).refusal != c->refusal)
        fail_case(c->name, "recovery's answer");
    if (c->refusal == 0)
        check_printed(c->name, "the recovered list", c->rows[0], results[ELEMENTS]);
}

/* Everything that is printed of the tables of a case. */
static void check_queries(const char *name, const struct mesh *t) {
    for (size_t i = 0; i < list_case_count; i++)
        if (strcmp(list_cases[i].build_case, name) == 0)
            check_list_case(&list_cases[i], t);
    for (size_t i = 0; i < hole_case_count; i++)
        if (strcmp(hole_cases[i].build_case, name) == 0)
            check_hole_case(&hole_cases[i], t);
    for (size_t i = 0; i < walk_case_count; i++)
        if (strcmp(walk_cases[i].build_case, name) == 0)
            check_walk(name, t, walk_cases[i].vertex, walk_cases[i].start, walk_cases[i].elements, walk_cases[i].count);
    for (size_t i = 0; i < vertex_case_count; i++)
        if (strcmp(vertex_cases[i].build_case, name) == 0)
            check_vertex_case(&vertex_cases[i], t);
    for (size_t i = 0; i < zeroed_case_count; i++)
        if (strcmp(zeroed_cases[i].build_case, name) == 0)
            check_zeroed_case(&zeroed_cases[i], t);
    for (size_t i = 0; i < figure_count; i++)
        if (strcmp(figures[i].build_case, name) == 0)
            check_figure(&figures[i], t);
    for (size_t i = 0; i < told_case_count; i++)
        if (strcmp(told_cases[i].build_case, name) == 0)
            check_told_case(&told_cases[i], t);
}

void printed_cases(struct dice *dice) {
    (void)dice;
    for (size_t i = 0; i < build_case_count; i++) {
        struct mesh t = tables_of_case(&build_cases[i]);
        check_queries(build_cases[i].name, &t);
        drop_tables(&t);
    }
    for (size_t i = 0; i < recovery_case_count; i++)
        check_recovery_case(&recovery_cases[i]);
}
