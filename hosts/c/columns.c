#include "columns.h"

#include "asking.h"
#include "borzhanu.h"
#include "cases.h"
#include "room.h"

#include <stdlib.h>
#include <string.h>

enum { MOST = BORZHANU_MAX_ELEMENTS };

/* Does something with the tables of each accepted case, and of small housings. */
static void for_small_tables(void (*try_tables)(const struct mesh *t), struct dice *dice) {
    struct mesh t;
    for (size_t i = 0; i < build_case_count; i++) {
        const struct build_case *c = &build_cases[i];
        struct list list = {c->n, c->m, c->m, (uint32_t *)c->rows};
        if (!built(&list, &t))
            continue;
        try_tables(&t);
        drop_tables(&t);
    }
    for (int i = 0; i < 30; i++) {
        struct list list = any_housing(dice, 4);
        if (built(&list, &t)) {
            try_tables(&t);
            drop_tables(&t);
        }
        drop_list(&list);
    }
}

/* ---- counting ---- */

/* Past whole rows, and with too many vertices, there is no number. */
static void check_columns(const struct list *list, uint32_t columns) {
    struct call call = look_at(list);
    compare_with(&call, 0, columns);
    call.n = BORZHANU_MAX_VERTICES;
    compare_with(&call, 0, columns);
    call.n += 1;
    compare_with(&call, 1, 0);
    call.n = list->n;
    if (list->m == 0)
        return;
    for (size_t missing = 1; missing < 4; missing++) {
        call.given[ELEMENTS].len = 4 * list->m - missing;
        compare_with(&call, 1, 0);
    }
}

/* Row f + 1 is a quadrilateral where bit f of the pattern is set; nothing else of the list matters. */
static void check_pattern(uint32_t m, uint32_t pattern, struct dice *dice) {
    static const uint32_t fourth[] = {1, 2, 3, 4, 1000000, UINT32_MAX};
    struct list list = empty_list(below(dice, 5), m);
    for (uint32_t f = 0; f < m; f++)
        add_row(&list, below(dice, 5), any_number(dice), below(dice, 5),
                pattern >> f & 1 ? fourth[below(dice, COUNT(fourth))] : 0);
    check_columns(&list, pattern == 0 ? 3 : 4);
    try_siblings(&list, NULL);
    struct call shape = shape_of(&list);
    compare(&shape, NULL);
    drop_list(&list);
}

/* E2e of both widths, for a query that looks at the list itself. */
static void ask_long_list(const struct list *list, uint32_t columns) {
    struct slice elements = {list->rows, 4 * list->m}, none = noise_of(V2E, 0);
    for (uint32_t width = 3; width <= 4; width++) {
        struct mesh t = {0, 0, elements, none, noise_of(E2E, width * list->m), none};
        struct call call = query_of(&code_calls[1], &t, borzhanu_side(1, 1));
        compare_with(&call, width == columns ? 0 : 2, width == columns ? borzhanu_side(1, 2) : 0);
    }
}

static void check_long_list(struct list *list, size_t quadrilateral) {
    list->rows[4 * quadrilateral + 3] = 7;
    struct call call = siblings_of(list);
    check_columns(list, 4);
    ask_long_list(list, 4);
    compare_with(&call, 0, 0);
    list->rows[4 * quadrilateral + 3] = 0;
}

static void long_lists(void) {
    static const size_t quadrilaterals[] = {0, 1, MOST / 2, MOST - 2, MOST - 1};
    struct list list = empty_list(9, MOST + 1);
    while (list.m < MOST)
        add_row(&list, 1, 2, 3, 0);
    check_columns(&list, 3);
    ask_long_list(&list, 3);
    for (size_t i = 0; i < COUNT(quadrilaterals); i++)
        check_long_list(&list, quadrilaterals[i]);
    add_row(&list, 1, 2, 3, 4);
    struct call call = look_at(&list);
    compare_with(&call, 1, 0);
    drop_list(&list);
}

void columns_of_lists(struct dice *dice) {
    for (uint32_t m = 0; m <= 7; m++)
        for (uint32_t pattern = 0; pattern < 1u << m; pattern++)
            check_pattern(m, pattern, dice);
    long_lists();
}

/* ---- queries ---- */

/* E2e being as long as it is: refused by check 2 exactly where the columns told don't ask for that length. A list not
   in fours and too many vertices are refused before. */
static void ask_told(struct call call, int fits) {
    struct call other = call;
    if ((compare(&call, NULL).refusal == 2) == fits)
        fail(fits ? "refused, though E2e has the length of the columns told"
                  : "not refused by check 2, though E2e hasn't the length of the columns told");
    other.n = BORZHANU_MAX_VERTICES + 1;
    compare_with(&other, 1, 0);
    call.given[ELEMENTS] = noise_of(ELEMENTS, call.given[ELEMENTS].len + 1);
    compare_with(&call, 1, 0);
}

static void ask_each(const struct mesh *t, int fits) {
    for (size_t i = 0; i < QUERIES; i++)
        ask_told(query_of(queries[i], t, 1), fits);
    ask_told(holes_of(t), fits);
}

static void try_told_lengths(const struct mesh *t) {
    static const uint32_t numbers[] = {0, 1, 2, 3, 4, 5, 6, 7, 8, 259, 65540, 0x80000003u, UINT32_MAX};
    size_t m = t->elements.len / 4;
    const size_t lens[] = {0, m, 2 * m, 3 * m, 3 * m + 1, 4 * m, 4 * m + 1, 5 * m, m == 0 ? 0 : 3 * m - 1,
                           m == 0 ? 0 : 4 * m - 1};
    for (size_t i = 0; i < COUNT(numbers) * COUNT(lens); i++) {
        struct mesh told = *t;
        told.columns = numbers[i / COUNT(lens)];
        told.e2e = resized(E2E, t->e2e, lens[i % COUNT(lens)]);
        uint32_t columns = told.columns == 0 ? columns_of(t->elements) : told.columns;
        ask_each(&told, (columns == 3 || columns == 4) && told.e2e.len == columns * m);
        free(told.e2e.at);
    }
}

/* Told three and told four, one of them wrong: E2e brought to these columns row by row, and as it stands. */
static void try_told_columns(const struct mesh *t) {
    for (uint32_t columns = 3; columns <= 4; columns++) {
        struct mesh told = copied_tables(t);
        told.columns = columns;
        bring_to_columns(&told, columns);
        ask_everything(&told);
        free(told.e2e.at);
        told.e2e = resized(E2E, t->e2e, columns * (t->elements.len / 4));
        ask_everything(&told);
        drop_tables(&told);
    }
}

/* Triangles, and a quadrilateral apart in one row. */
static struct list with_quadrilateral(uint32_t width, uint32_t height, size_t row, struct dice *dice) {
    struct list list = sheet(width, height, 0, 0, TRIANGLES, dice), one = sheet(1, 1, 0, 0, QUADRILATERALS, dice);
    add_list(&list, &one);
    drop_list(&one);
    uint32_t last[4], *rows = list.rows;
    memcpy(last, rows + 4 * (list.m - 1), sizeof last);
    memmove(rows + 4 * (row + 1), rows + 4 * row, 4 * (list.m - 1 - row) * sizeof *rows);
    memcpy(rows + 4 * row, last, sizeof last);
    return list;
}

void told_columns(struct dice *dice) {
    for_small_tables(try_told_lengths, dice);
    for_small_tables(try_told_columns, dice);
    for (uint32_t row = 0; row <= 8; row++) {
        struct list list = with_quadrilateral(2, 2, row, dice);
        try_small_list(&list, dice);
        drop_list(&list);
        list = with_quadrilateral(20, 8, 40 * row, dice);
        try_list(&list, dice, 4);
        drop_list(&list);
    }
}

/* ---- recovery ---- */

/* The other buffers are as m asks for, so that another one doesn't fit. */
static void tell_other_m(const struct mesh *t) {
    uint32_t m = (uint32_t)(t->elements.len / 4);
    const uint32_t numbers[] = {m, m - 1, m + 1, 0, 2 * m, MOST, MOST + 1, UINT32_MAX};
    struct call call = recovery_of(t);
    for (size_t i = 0; i < COUNT(numbers); i++) {
        call.m = numbers[i];
        compare_with(&call, call.m > MOST ? 1 : call.m == m ? 0 : 2, 0);
    }
}

/* Another m of which E2e has three columns or four, the other buffers being as it asks for. */
static void recover_as(const struct mesh *t, uint32_t columns) {
    struct mesh other = *t;
    if (t->e2e.len % columns != 0)
        return;
    other.elements.len = 4 * (t->e2e.len / columns);
    recover(&other);
}

/* E2e of every length; only 3 * m and 4 * m are let through. */
static void recover_of_length(const struct mesh *t, size_t len) {
    struct mesh other = *t;
    size_t m = t->elements.len / 4;
    other.e2e = resized(E2E, t->e2e, len);
    struct call call = recovery_of(&other);
    if ((compare(&call, NULL).refusal == 2) == (len == 3 * m || len == 4 * m))
        fail("E2e's length isn't judged by 3 * m and 4 * m");
    free(other.e2e.at);
}

static void recover_into_length(const struct mesh *t, size_t len) {
    struct call call = recovery_of(t);
    call.given[ELEMENTS] = noise_of(ELEMENTS, len);
    compare_with(&call, len % 4 != 0 ? 1 : len == t->elements.len ? 0 : 2, 0);
}

/* In four columns triangles don't come back. */
static void recover_widened(const struct mesh *t) {
    struct mesh wide = copied_tables(t);
    bring_to_columns(&wide, 4);
    struct call call = recovery_of(&wide);
    int comes_back = columns_of(t->elements) == 4 || t->elements.len == 0;
    compare_with(&call, comes_back ? 0 : 10, 0);
    drop_tables(&wide);
}

static void recover_narrowed(const struct mesh *t) {
    struct mesh narrow = copied_tables(t);
    bring_to_columns(&narrow, 3);
    recover(&narrow);
    drop_tables(&narrow);
}

static void try_recovery(const struct mesh *t) {
    tell_other_m(t);
    recover_as(t, 3);
    recover_as(t, 4);
    for (size_t len = 0; len <= t->elements.len + 5; len++)
        recover_of_length(t, len);
    for (size_t len = 0; len <= t->elements.len + 5; len++)
        recover_into_length(t, len);
    recover_widened(t);
    recover_narrowed(t);
}

static void check_apart(const struct list *list, struct slice codes) {
    struct slice results[ROLES];
    struct call call = build_of(list, list->n);
    struct mesh t = {list->n, 0, {list->rows, 4 * list->m}, codes, codes, noise_of(B2E, 0)};
    try_shape(list, compare(&call, results));
    if (results[E2E].len != codes.len || memcmp(results[V2E].at, codes.at, codes.len * sizeof(uint32_t)) != 0 ||
        memcmp(results[E2E].at, codes.at, codes.len * sizeof(uint32_t)) != 0)
        fail("the tables aren't 8, 16, 24 and so on");
    call = recovery_of(&t);
    if (compare(&call, results).refusal != 0 ||
        memcmp(results[ELEMENTS].at, list->rows, 4 * list->m * sizeof(uint32_t)) != 0)
        fail("the list that these tables have doesn't come back");
    try_siblings(list, NULL);
}

/* Four triangles apart and three quadrilaterals apart, or as many times each, have the same tables; m tells them
   apart. */
static void same_tables(uint32_t times) {
    struct list triangles = apart(3, 4 * times), quadrilaterals = apart(4, 3 * times);
    struct slice codes = {malloc(triangles.n * sizeof(uint32_t)), triangles.n};
    if (codes.at == NULL)
        exit(2);
    for (uint32_t b = 1; b <= codes.len; b++)
        codes.at[b - 1] = borzhanu_border(b);
    check_apart(&triangles, codes);
    check_apart(&quadrilaterals, codes);
    free(codes.at);
    drop_list(&triangles);
    drop_list(&quadrilaterals);
}

void recovery_told_m(struct dice *dice) {
    for_small_tables(try_recovery, dice);
    same_tables(1);
    same_tables(2);
    same_tables(30);
    same_tables(10000);
}

/* ---- time ---- */

/* A call takes less than a microsecond, one that looks at the whole list about a millisecond. */
static void check_query_time(const struct exported *query, const struct mesh *t, uint32_t number) {
    enum { TIMES = 20000 };
    static const double allowed = 2;
    uint32_t record[RECORD_LENGTH] = {borzhanu_side(MOST, 1), borzhanu_side(MOST, 1), 0};
    struct call call = query_of(query, t, number);
    call.given[OUT] = noise_of(OUT, 2);
    call.given[RECORD] = (struct slice){record, RECORD_LENGTH};
    if (compare(&call, NULL).refusal != 0)
        fail("there is an answer");
    check_time(&call, TIMES, allowed);
}

/* As many elements as there can be, all alike, each side opposite border half-edge 1, which is opposite the first side
   of the last element: no mesh, but every query has a short answer. */
void time_of_told_columns(struct dice *dice) {
    static uint32_t v2e[] = {8, 8, 8, 8}, b2e[] = {8 * MOST + 1};
    struct list list = empty_list(COUNT(v2e), MOST);
    struct slice e2e = {malloc(4 * (size_t)MOST * sizeof(uint32_t)), 4 * (size_t)MOST};
    (void)dice;
    if (e2e.at == NULL)
        exit(2);
    for (size_t i = 0; i < e2e.len; i++)
        e2e.at[i] = borzhanu_border(1);
    for (uint32_t columns = 3; columns <= 4; columns++) {
        for (list.m = 0; list.m < MOST;)
            add_row(&list, 1, 2, 3, columns == 4 ? 4 : 0);
        e2e.len = columns * list.m;
        struct mesh t = {list.n, columns, {list.rows, 4 * list.m}, {v2e, list.n}, e2e, {b2e, COUNT(b2e)}};
        for (size_t i = 0; i < QUERIES; i++)
            check_query_time(queries[i], &t, i < CODE_CALLS ? borzhanu_side(MOST, 1) : 1);
    }
    free(e2e.at);
    drop_list(&list);
}
