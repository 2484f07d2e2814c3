#include "asking.h"

#include "rims.h"
#include "room.h"
#include "rounds.h"
#include "shaping.h"

#include <stdlib.h>
#include <string.h>

static struct slice noise[ROLES];

void prepare_noise(struct dice *dice) {
    for (int role = 0; role < ROLES; role++) {
        size_t len = room_of((enum role)role);
        noise[role] = (struct slice){malloc(len * sizeof(uint32_t)), len};
        if (noise[role].at == NULL)
            exit(2);
        for (size_t i = 0; i < len; i++)
            noise[role].at[i] = any_number(dice) >> below(dice, 32);
    }
}

struct slice noise_of(enum role role, size_t len) {
    return (struct slice){noise[role].at, len};
}

struct slice copied(struct slice from) {
    struct slice copy = {malloc((from.len + 1) * sizeof(uint32_t)), from.len};
    if (copy.at == NULL)
        exit(2);
    if (from.len != 0)
        memcpy(copy.at, from.at, from.len * sizeof(uint32_t));
    return copy;
}

struct mesh copied_tables(const struct mesh *t) {
    return (struct mesh){t->n, t->columns, copied(t->elements), copied(t->v2e), copied(t->e2e), copied(t->b2e)};
}

void drop_tables(struct mesh *t) {
    free(t->elements.at);
    free(t->v2e.at);
    free(t->e2e.at);
    free(t->b2e.at);
}

static size_t elements_of(const struct mesh *t) {
    return t->elements.len / 4;
}

struct slice resized(enum role role, struct slice from, size_t len) {
    struct slice result = copied(noise_of(role, len));
    size_t kept = from.len < len ? from.len : len;
    if (kept != 0)
        memcpy(result.at, from.at, kept * sizeof(uint32_t));
    return result;
}

void bring_to_columns(struct mesh *t, uint32_t columns) {
    size_t m = elements_of(t), from = m == 0 ? columns : t->e2e.len / m;
    if (from == columns)
        return;
    struct slice brought = resized(E2E, t->e2e, columns * m);
    for (size_t f = 0; f < m; f++)
        for (size_t i = 0; i < columns; i++)
            brought.at[columns * f + i] = i < from ? t->e2e.at[from * f + i] : 0;
    free(t->e2e.at);
    t->e2e = brought;
}

uint32_t other_columns(const struct mesh *t) {
    return columns_of(t->elements) == 3 ? 4 : 3;
}

/* one past the codes that a damaged entry or a question may name */
static uint32_t code_bound(const struct mesh *t) {
    size_t m = elements_of(t), most = m > t->b2e.len ? m : t->b2e.len;
    return (uint32_t)(8 * (most + 2));
}

static struct call empty_call(const struct exported *exported, uint32_t n) {
    struct call call = {exported, n, 0, 0, 0, {{NULL, 0}}, {NULL, 0}};
    for (int role = 0; role < ROLES; role++)
        call.given[role] = noise_of((enum role)role, role == RECORD ? RECORD_LENGTH : 0);
    return call;
}

struct call build_of(const struct list *list, size_t b2e_len) {
    struct call call = empty_call(&build_call, list->n);
    call.given[ELEMENTS] = (struct slice){list->rows, 4 * list->m};
    call.given[V2E] = noise_of(V2E, list->n);
    call.given[E2E] = noise_of(E2E, columns_of(call.given[ELEMENTS]) * list->m);
    call.given[B2E] = noise_of(B2E, b2e_len);
    call.given[WORK] = noise_of(WORK, list->n + 16 * list->m);
    return call;
}

struct call siblings_of(const struct list *list) {
    struct call call = empty_call(&siblings_call, list->n);
    call.given[ELEMENTS] = (struct slice){list->rows, 4 * list->m};
    call.given[V2E] = noise_of(V2E, list->n);
    call.given[SIBLINGS] = noise_of(SIBLINGS, 4 * list->m);
    call.given[WORK] = noise_of(WORK, list->n + 16 * list->m);
    return call;
}

struct call shape_of(const struct list *list) {
    struct call call = empty_call(&shape_call, list->n);
    call.given[ELEMENTS] = (struct slice){list->rows, 4 * list->m};
    call.given[WORK] = noise_of(WORK, list->n + 16 * list->m);
    return call;
}

struct call look_at(const struct list *list) {
    struct call call = empty_call(&columns_call, list->n);
    call.given[ELEMENTS] = (struct slice){list->rows, 4 * list->m};
    return call;
}

struct call reading_of(struct text text, size_t elements_len) {
    struct call call = empty_call(&read_off_call, 0);
    call.text = text;
    call.given[ELEMENTS] = noise_of(ELEMENTS, elements_len);
    return call;
}

struct call recovery_of(const struct mesh *t) {
    struct call call = empty_call(&recover_call, t->n);
    call.m = (uint32_t)elements_of(t);
    call.given[ELEMENTS] = noise_of(ELEMENTS, t->elements.len);
    call.given[V2E] = t->v2e;
    call.given[E2E] = t->e2e;
    call.given[WORK] = noise_of(WORK, t->n + 16 * elements_of(t));
    return call;
}

struct call query_of(const struct exported *exported, const struct mesh *t, uint32_t number) {
    struct call call = empty_call(exported, t->n);
    call.columns = t->columns;
    call.number = number;
    call.given[ELEMENTS] = t->elements;
    call.given[V2E] = t->v2e;
    call.given[E2E] = t->e2e;
    call.given[B2E] = t->b2e;
    return call;
}

struct call holes_of(const struct mesh *t) {
    struct call call = query_of(&holes_call, t, 0);
    call.given[HOLE] = noise_of(HOLE, t->b2e.len);
    call.given[LENGTHS] = noise_of(LENGTHS, t->b2e.len);
    call.given[WORK] = noise_of(WORK, t->n + 16 * elements_of(t));
    return call;
}

/* ---- asking ---- */

void ask_code(const struct mesh *t, uint32_t code) {
    for (int i = 0; i < CODE_CALLS; i++) {
        struct call call = query_of(&code_calls[i], t, code);
        compare(&call, NULL);
    }
}

void ask_list(const struct exported *exported, const struct mesh *t, uint32_t number) {
    struct call call = query_of(exported, t, number);
    struct answer answer = compare(&call, NULL);
    if (answer.refusal != 0 && answer.refusal != 13)
        return;
    for (uint32_t len = answer.first > 0 ? answer.first - 1 : 0; len <= answer.first + 2; len++) {
        call.given[OUT] = noise_of(OUT, len);
        compare(&call, NULL);
    }
}

struct answer compare_holes(const struct mesh *t, const struct call *call) {
    struct slice results[ROLES];
    struct answer answer = compare(call, results);
    if (answer.refusal == 0)
        check_rims(t, answer.first, results[HOLE], results[LENGTHS]);
    return answer;
}

struct answer ask_holes(const struct mesh *t) {
    size_t k = t->b2e.len;
    const size_t rooms[] = {0, k > 0 ? k - 1 : 0, k, k + 2};
    struct call call = holes_of(t);
    struct answer answer = compare_holes(t, &call);
    for (size_t i = 0; i < COUNT(rooms) * COUNT(rooms); i++) {
        call.given[HOLE].len = rooms[i % COUNT(rooms)];
        call.given[LENGTHS].len = rooms[i / COUNT(rooms)];
        compare(&call, NULL);
        call.given[WORK].len += i % 2;
    }
    call = holes_of(t);
    if (call.given[WORK].len > 0)
        call.given[WORK].len -= 1;
    compare(&call, NULL);
    return answer;
}

void ask_walker(const struct mesh *t, uint32_t v) {
    struct call call = query_of(&start_call, t, v);
    struct slice results[ROLES];
    uint32_t record[RECORD_LENGTH];
    if (compare(&call, results).refusal != 0)
        return;
    call.exported = &step_call;
    call.given[RECORD] = (struct slice){record, RECORD_LENGTH};
    for (int further = 0; further < 3;) {
        memcpy(record, results[RECORD].at, sizeof record);
        struct answer answer = compare(&call, results);
        further += answer.refusal != 0 || answer.first == 0;
    }
}

void ask_vertex(const struct mesh *t, uint32_t v) {
    struct call call = query_of(&vertex_test, t, v);
    compare(&call, NULL);
    for (int i = 0; i < VERTEX_LISTS; i++)
        ask_list(&vertex_lists[i], t, v);
    ask_walker(t, v);
}

void ask_everything(const struct mesh *t) {
    for (uint32_t code = 0; code < code_bound(t); code++)
        ask_code(t, code);
    for (uint32_t v = 0; v <= t->n + 1; v++)
        ask_vertex(t, v);
    for (uint32_t b = 0; b <= t->b2e.len + 1; b++)
        ask_list(&border_list, t, b);
    ask_holes(t);
}

static uint32_t any_code(const struct mesh *t, struct dice *dice) {
    return below(dice, 20) == 0 ? any_number(dice) : below(dice, code_bound(t));
}

/* A walker's record that no call made, mostly near to one that a call could have made. */
static void ask_any_record(const struct mesh *t, struct dice *dice) {
    uint32_t m = (uint32_t)elements_of(t);
    uint32_t record[RECORD_LENGTH] = {any_code(t, dice), any_code(t, dice), below(dice, m + 2)};
    if (below(dice, 8) == 0)
        record[2] = any_number(dice);
    if (below(dice, 8) == 0)
        record[1] = 0;
    if (below(dice, 4) == 0)
        record[0] = record[1];
    struct call call = query_of(&step_call, t, 0);
    call.given[RECORD] = (struct slice){record, RECORD_LENGTH};
    compare(&call, NULL);
}

static size_t any_room(size_t needed, struct dice *dice) {
    switch (below(dice, 6)) {
    case 0:
        return below(dice, (uint32_t)needed + 1);
    case 1:
        return needed > 0 ? needed - 1 : 0;
    case 2:
        return needed + 1 + below(dice, 3);
    default:
        return needed;
    }
}

/* With outputs and a work buffer of any lengths, and noise from any place on. */
static void ask_any_holes(const struct mesh *t, struct dice *dice) {
    static const enum role written[] = {HOLE, LENGTHS, WORK};
    struct call call = holes_of(t);
    for (size_t i = 0; i < COUNT(written); i++) {
        struct slice *given = &call.given[written[i]];
        given->len = any_room(given->len, dice);
        given->at += below(dice, (uint32_t)(room_of(written[i]) - given->len + 1));
    }
    compare_holes(t, &call);
}

void ask_something(const struct mesh *t, struct dice *dice, int times) {
    while (times-- > 0) {
        ask_code(t, any_code(t, dice));
        ask_vertex(t, below(dice, 50) == 0 ? any_number(dice) : below(dice, t->n + 2));
        ask_list(&border_list, t, below(dice, 50) == 0 ? any_number(dice) : below(dice, (uint32_t)t->b2e.len + 2));
        ask_any_record(t, dice);
        ask_any_holes(t, dice);
    }
}

/* ---- what is done with a list ---- */

void try_siblings(const struct list *list, const struct mesh *t) {
    static size_t longer = 5;
    struct call call = siblings_of(list);
    struct slice results[ROLES];
    longer = 5 - longer;
    call.given[WORK].len += longer;
    if (compare(&call, results).refusal != 0)
        return;
    check_rounds(results[ELEMENTS], results[SIBLINGS]);
    check_least_sides(results[ELEMENTS], results[V2E]);
    if (t != NULL)
        check_opposites(t, results[SIBLINGS]);
}

void try_shape(const struct list *list, struct answer of_building) {
    static size_t longer = 5;
    struct call call = shape_of(list);
    longer = 5 - longer;
    call.given[WORK].len += longer;
    int64_t number = (int64_t)list->n - of_building.second + (int64_t)list->m;
    compare_answer(&call, of_building.refusal != 0 ? of_building : gives_signed(number));
}

int built(const struct list *list, struct mesh *t) {
    struct call call = build_of(list, list->n + 3);
    struct slice results[ROLES];
    struct answer answer = compare(&call, results);
    if (answer.refusal != 0) {
        try_siblings(list, NULL);
        try_shape(list, answer);
        return 0;
    }
    struct slice b2e = {results[B2E].at, answer.first};
    *t = (struct mesh){list->n, 0, copied(results[ELEMENTS]), copied(results[V2E]), copied(results[E2E]), copied(b2e)};
    try_siblings(list, t);
    try_shape(list, answer);
    return 1;
}

/* Refusals 3 to 8 and 18 come before 9. */
static void build_without_room(const struct list *list) {
    struct call call = build_of(list, 0);
    compare(&call, NULL);
}

void build_with_other_room(const struct list *list, size_t k) {
    for (size_t len = k > 0 ? k - 1 : 0; len <= k + 1; len++) {
        struct call call = build_of(list, len);
        call.given[WORK].len += len % 3;
        compare(&call, NULL);
    }
    build_without_room(list);
}

/* With a work buffer of the least length, and with a longer one. */
static void recover_with(const struct mesh *t, uint32_t refusal) {
    struct call call = recovery_of(t);
    compare_with(&call, refusal, 0);
    call.given[WORK].len += 5;
    compare_with(&call, refusal, 0);
}

void recover(const struct mesh *t) {
    struct call call = recovery_of(t);
    compare(&call, NULL);
    call.given[WORK].len += 5;
    compare(&call, NULL);
}

int tried_building(const struct list *list, struct mesh *t) {
    struct slice rows = {list->rows, 4 * list->m};
    int accepted = built(list, t);
    if (!accepted && !tables_but_for_18(list->n, rows, t)) {
        build_without_room(list);
        return 0;
    }
    build_with_other_room(list, t->b2e.len);
    recover_with(t, accepted ? 0 : 10);
    return 1;
}

/* The border half-edge that ends at a vertex; 0: there is none. */
static uint32_t border_into(const struct mesh *t, uint32_t v) {
    for (uint32_t b = 1; b <= t->b2e.len; b++) {
        uint32_t side = t->b2e.at[b - 1];
        if (t->elements.at[4 * (side / 8 - 1) + side % 8 - 1] == v)
            return b;
    }
    return 0;
}

void try_zeroed(const struct mesh *t, uint32_t v) {
    struct mesh zeroed = copied_tables(t);
    uint32_t b = border_into(t, v);
    zeroed.v2e.at[v - 1] = 0;
    ask_vertex(&zeroed, v);
    ask_code(&zeroed, 8 * b);
    ask_list(&border_list, &zeroed, b);
    struct call call = holes_of(&zeroed);
    if ((compare(&call, NULL).refusal == 12) != (b != 0))
        fail(b != 0 ? "no 12, though a rim comes to an entry of 0" : "12, though no rim comes to an entry of 0");
    recover(&zeroed);
    drop_tables(&zeroed);
}

void recover_claimed(const struct mesh *t, uint32_t v, uint32_t entry) {
    struct mesh claimed = copied_tables(t);
    claimed.v2e.at[v - 1] = entry;
    recover(&claimed);
    drop_tables(&claimed);
}

static void try_any_zeroed(const struct mesh *t, struct dice *dice) {
    if (elements_of(t) != 0)
        try_zeroed(t, t->elements.at[4 * (size_t)below(dice, (uint32_t)elements_of(t)) + below(dice, 3)]);
}

/* The first spare vertex from some place on is given the entry of a vertex, or a code. */
static void recover_any_claimed(const struct mesh *t, struct dice *dice) {
    uint32_t v = 1 + below(dice, t->n);
    while (v <= t->n && t->v2e.at[v - 1] != 0)
        v++;
    if (v <= t->n)
        recover_claimed(t, v, below(dice, 2) == 0 ? t->v2e.at[below(dice, t->n)] : any_code(t, dice));
}

/* Recovery from E2e in other columns: four of triangles, or three of a list with a quadrilateral. */
static void recover_in_other_columns(const struct mesh *t) {
    struct mesh other = copied_tables(t);
    bring_to_columns(&other, other_columns(t));
    recover(&other);
    drop_tables(&other);
}

/* Recovery from tables that aren't quite these. Exchanged V2e entries can be those of another list. */
static void recover_damaged(const struct mesh *t, struct dice *dice) {
    struct mesh damaged = copied_tables(t);
    uint32_t how = below(dice, 5);
    if (how == 4)
        bring_to_columns(&damaged, other_columns(t));
    if (how == 0 && t->n > 0) {
        uint32_t a = below(dice, t->n), b = below(dice, t->n);
        swap(&damaged.v2e.at[a], &damaged.v2e.at[b]);
    }
    if (how == 1 || how == 3)
        damage_table(damaged.v2e.at, damaged.v2e.len, code_bound(t), dice);
    if (how >= 2)
        damage_table(damaged.e2e.at, damaged.e2e.len, code_bound(t), dice);
    recover(&damaged);
    drop_tables(&damaged);
}

/* What queries are told is made wrong, of three columns and four the other; E2e gets the length that fits it, row by
   row or as it stands. */
static void tell_other_columns(struct mesh *t, struct dice *dice) {
    t->columns = other_columns(t);
    if (below(dice, 2) == 0) {
        bring_to_columns(t, t->columns);
        return;
    }
    struct slice e2e = resized(E2E, t->e2e, t->columns * elements_of(t));
    free(t->e2e.at);
    t->e2e = e2e;
}

/* A query told what is no number of columns, and so holes. */
static void ask_without_columns(const struct mesh *t, struct dice *dice) {
    static const uint32_t numbers[] = {1, 2, 5, 7, UINT32_MAX};
    struct call call = query_of(queries[below(dice, QUERIES)], t, any_code(t, dice)), holes = holes_of(t);
    call.columns = holes.columns = numbers[below(dice, COUNT(numbers))];
    compare(&call, NULL);
    compare(&holes, NULL);
}

static void ask_damaged(const struct mesh *t, struct dice *dice, int times) {
    struct mesh damaged = copied_tables(t);
    uint32_t which = 1 + below(dice, 15), codes = code_bound(t);
    if (which & 1)
        damage_table(damaged.v2e.at, damaged.v2e.len, codes, dice);
    if (which & 2)
        damage_table(damaged.e2e.at, damaged.e2e.len, codes, dice);
    if (which & 4)
        damage_table(damaged.b2e.at, damaged.b2e.len, codes, dice);
    if (which & 8)
        damage_table(damaged.elements.at, damaged.elements.len, t->n + 2, dice);
    bring_to_columns(&damaged, columns_of(damaged.elements));
    ask_something(&damaged, dice, times);
    tell_other_columns(&damaged, dice);
    ask_something(&damaged, dice, times);
    ask_without_columns(&damaged, dice);
    drop_tables(&damaged);
}

void try_small_list(const struct list *list, struct dice *dice) {
    struct call look = look_at(list);
    struct mesh t;
    compare(&look, NULL);
    if (!tried_building(list, &t))
        return;
    recover_in_other_columns(&t);
    recover_damaged(&t, dice);
    recover_any_claimed(&t, dice);
    ask_everything(&t);
    ask_damaged(&t, dice, 2);
    try_any_zeroed(&t, dice);
    drop_tables(&t);
}

void try_list(const struct list *list, struct dice *dice, int times) {
    struct call look = look_at(list);
    struct mesh t;
    compare(&look, NULL);
    if (!tried_building(list, &t))
        return;
    recover_in_other_columns(&t);
    ask_something(&t, dice, times);
    for (int i = 0; i <= times / 4; i++) {
        recover_damaged(&t, dice);
        recover_any_claimed(&t, dice);
        ask_damaged(&t, dice, 1 + times / 8);
        try_any_zeroed(&t, dice);
    }
    drop_tables(&t);
}
