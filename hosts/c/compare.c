/*
 * Compares every exported call with the reference, on inputs of every kind: answers, refusals, places,
 * and each entry of each buffer afterwards. Every call is made twice, once with the end of each buffer
 * at a page that faults when touched and once with its start; an empty buffer is null the second time.
 * A query that is told no columns is made again, told those of the list.
 *
 *     compare [SEED]
 */
#define _DEFAULT_SOURCE
#include "asking.h"
#include "borzhanu.h"
#include "columns.h"
#include "contracts.h"
#include "header.h"
#include "holes.h"
#include "meeting.h"
#include "off.h"
#include "pillows.h"
#include "printed.h"
#include "room.h"
#include "shapes.h"
#include "siblings.h"
#include "spare.h"
#include "splits.h"
#include "swaps.h"

#include <stdio.h>
#include <stdlib.h>
#include <string.h>
#include <time.h>

enum { SEED = 20240131 };

static int row_is_fit(const uint32_t *row, uint32_t n) {
    for (int i = 0; i < 4; i++) {
        if ((i < 3 && row[i] == 0) || row[i] > n)
            return 0;
        for (int j = 0; j < i; j++)
            if (row[i] != 0 && row[i] == row[j])
                return 0;
    }
    return 1;
}

/* the row whose corners are the digits of `number` to the base `values` */
static void digits(uint32_t number, uint32_t values, uint32_t *row) {
    for (int i = 3; i >= 0; i--) {
        row[i] = number % values;
        number /= values;
    }
}

static uint32_t rows_with(uint32_t values) {
    return values * values * values * values;
}

static void no_row(struct dice *dice) {
    for (uint32_t n = 0; n <= 9; n++) {
        struct list list = {n, 0, 0, NULL};
        try_small_list(&list, dice);
    }
}

static void one_row(struct dice *dice) {
    for (uint32_t n = 0; n <= 5; n++)
        for (uint32_t number = 0; number < rows_with(n + 2); number++) {
            uint32_t row[4];
            digits(number, n + 2, row);
            struct list list = {n, 1, 1, row};
            try_small_list(&list, dice);
        }
}

/* All fit rows on n vertices; returns their number. */
static uint32_t fit_rows(uint32_t n, uint32_t rows[][4], uint32_t room) {
    uint32_t count = 0;
    for (uint32_t number = 0; number < rows_with(n + 1); number++) {
        uint32_t row[4];
        digits(number, n + 1, row);
        if (row_is_fit(row, n) && count < room)
            memcpy(rows[count++], row, sizeof row);
    }
    return count;
}

static void two_rows_of(uint32_t n, const uint32_t *first, const uint32_t *second, struct dice *dice) {
    uint32_t rows[8];
    memcpy(rows, first, 4 * sizeof *first);
    memcpy(rows + 4, second, 4 * sizeof *second);
    struct list list = {n, 2, 2, rows};
    try_small_list(&list, dice);
}

/* All pairs of fit rows on up to four vertices; as many pairs of any rows; some on five vertices. */
static void two_rows(struct dice *dice) {
    static uint32_t fit[512][4];
    for (uint32_t n = 3; n <= 5; n++) {
        uint32_t count = fit_rows(n, fit, COUNT(fit)), values = n + 2, any[2][4];
        for (uint32_t pair = 0; pair < count * count; pair += n < 5 ? 1 : 1 + below(dice, 50)) {
            two_rows_of(n, fit[pair / count], fit[pair % count], dice);
            digits(below(dice, rows_with(values)), values, any[0]);
            digits(below(dice, rows_with(values)), values, any[1]);
            two_rows_of(n, any[0], any[1], dice);
        }
    }
}

/* A triangle and a quadrilateral, each beside every fit row on six vertices: all ways in which two elements share two
   corners or more. */
static void every_second_row(struct dice *dice) {
    static const uint32_t rows[2][4] = {{1, 2, 3, 0}, {1, 2, 3, 4}};
    static uint32_t fit[512][4];
    uint32_t count = fit_rows(6, fit, COUNT(fit));
    for (uint32_t i = 0; i < 2 * count; i++)
        if (below(dice, 2) == 0)
            two_rows_of(6, rows[i % 2], fit[i / 2], dice);
        else
            two_rows_of(6, fit[i / 2], rows[i % 2], dice);
}

/* Every content of V2e and of E2e of one element on three vertices, out of the codes that could be meant. */
static void small_tables_of(uint32_t columns) {
    static const uint32_t codes[] = {0, 8, 16, 24, 32, 9};
    uint32_t entries[7], all = 1;
    for (uint32_t i = 0; i < columns + 3; i++)
        all *= COUNT(codes);
    for (uint32_t number = 0; number < all; number++) {
        uint32_t rest = number;
        for (uint32_t i = 0; i < columns + 3; i++, rest /= COUNT(codes))
            entries[i] = codes[rest % COUNT(codes)];
        struct mesh t = {3, 0, noise_of(ELEMENTS, 4), {entries + columns, 3}, {entries, columns}, noise_of(B2E, 0)};
        struct call call = recovery_of(&t);
        compare(&call, NULL);
    }
}

static void small_tables(struct dice *dice) {
    (void)dice;
    small_tables_of(3);
    small_tables_of(4);
}

enum { CODES = 7 };

/* Recovery of every content of V2e on n vertices, out of codes that could be meant, beside one E2e. */
static void every_v2e(uint32_t n, const uint32_t *codes, struct slice e2e, size_t m) {
    uint32_t v2e[5], all = 1;
    for (uint32_t v = 0; v < n; v++)
        all *= CODES;
    for (uint32_t number = 0; number < all; number++) {
        uint32_t rest = number;
        for (uint32_t v = 0; v < n; v++, rest /= CODES)
            v2e[v] = codes[rest % CODES];
        struct mesh t = {n, 0, noise_of(ELEMENTS, 4 * m), {v2e, n}, e2e, noise_of(B2E, 0)};
        struct call call = recovery_of(&t);
        compare(&call, NULL);
    }
}

/* E2e of no element, of one triangle, of one quadrilateral, of the listing, also in four columns, of four triangles
   about a solid, and of two triangles back to back: on up to five vertices some are spare, and any of them can be. */
static void small_spare_tables(struct dice *dice) {
    static const uint32_t of_open[CODES] = {0, 8, 16, 24, 32, 9, 17}, of_closed[CODES] = {0, 9, 10, 11, 18, 17, 8};
    static struct {
        const uint32_t *codes;
        size_t m, columns;
        uint32_t e2e[12];
    } tables[] = {
        {of_open, 0, 3, {0}},
        {of_open, 1, 3, {8, 16, 24}},
        {of_open, 1, 4, {8, 16, 24, 32}},
        {of_open, 2, 3, {8, 16, 17, 11, 24, 32}},
        {of_open, 2, 4, {8, 16, 17, 0, 11, 24, 32, 0}},
        {of_closed, 4, 3, {19, 27, 35, 34, 25, 9, 18, 33, 10, 26, 17, 11}},
        {of_closed, 2, 3, {19, 18, 17, 11, 10, 9}},
    };
    (void)dice;
    for (size_t i = 0; i < COUNT(tables); i++)
        for (uint32_t n = 0; n <= 5; n++)
            every_v2e(n, tables[i].codes, (struct slice){tables[i].e2e, tables[i].columns * tables[i].m}, tables[i].m);
}

static void prepare_any(struct list *list, struct dice *dice) {
    disguise(list, dice);
    if (below(dice, 3) == 0)
        for (uint32_t times = 1 + below(dice, 3); times > 0; times--)
            damage_list(list, dice);
}

static void small_housings(struct dice *dice) {
    for (int i = 0; i < 600; i++) {
        struct list list = any_housing(dice, 12);
        prepare_any(&list, dice);
        try_small_list(&list, dice);
        drop_list(&list);
    }
}

static void housings(struct dice *dice) {
    for (int i = 0; i < 600; i++) {
        struct list list = any_housing(dice, 300);
        prepare_any(&list, dice);
        try_list(&list, dice, 12);
        drop_list(&list);
    }
}

static void large_housings(struct dice *dice) {
    static const uint32_t sizes[] = {1000, 3000, 10000, 30000, 100000};
    for (size_t i = 0; i < COUNT(sizes); i++) {
        struct list list = any_housing(dice, sizes[i]);
        prepare_any(&list, dice);
        try_list(&list, dice, 1);
        drop_list(&list);
    }
    struct list list = sheet(250, 200, 0, 0, TRIANGLES, dice);
    shuffle_rows(&list, dice);
    renumber_vertices(&list, dice);
    try_list(&list, dice, 1);
    damage_list(&list, dice);
    try_list(&list, dice, 1);
    drop_list(&list);
}

/* Tables and lists of noise, near to codes; queries are told 0, or the columns of E2e, which needn't be the list's. */
static void noise_tables(struct dice *dice) {
    for (int i = 0; i < 4000; i++) {
        uint32_t n = 1 + below(dice, 6), m = below(dice, 7), k = below(dice, 4 * m + 1), columns = 3 + below(dice, 2);
        struct mesh given = {n,
                             below(dice, 4) == 0 ? 0 : columns,
                             noise_of(ELEMENTS, 4 * m),
                             noise_of(V2E, n),
                             noise_of(E2E, columns * m),
                             noise_of(B2E, k)};
        struct mesh t = copied_tables(&given);
        int triangles = below(dice, 3) == 0;
        for (size_t j = 0; j < t.elements.len; j++)
            t.elements.at[j] = triangles && j % 4 == 3 ? 0 : below(dice, n + 2);
        for (size_t j = 0; j < t.e2e.len; j++)
            t.e2e.at[j] = below(dice, 3) == 0 ? 8 * below(dice, k + 2) : below(dice, 8 * m + 16);
        for (size_t j = 0; j < n; j++)
            t.v2e.at[j] = below(dice, 2) == 0 ? 8 * below(dice, k + 2) : below(dice, 8 * m + 16);
        for (size_t j = 0; j < k; j++)
            t.b2e.at[j] = below(dice, 8 * m + 16);
        ask_something(&t, dice, 6);
        recover(&t);
        struct list list = {n, m, m, t.elements.at};
        struct call shape = shape_of(&list);
        try_siblings(&list, NULL);
        compare(&shape, NULL);
        drop_tables(&t);
    }
}

/* A buffer cut, or longer and full of noise. */
static void change_length(struct slice *given, enum role role, long change) {
    long len = (long)given->len + change;
    if (change > 0)
        *given = noise_of(role, (size_t)len);
    else
        given->len = len < 0 ? 0 : (size_t)len;
}

/* n, the m that recovery is told and the columns that a query is told, now and then. */
static void change_numbers(struct call *call, struct dice *dice) {
    static const uint32_t columns[] = {0, 0, 0, 3, 3, 4, 4, 1, 2, 5, 7, UINT32_MAX};
    if (below(dice, 8) == 0)
        call->n = call->n + below(dice, 3) - 1;
    if (below(dice, 8) == 0)
        call->m = call->m + below(dice, 3) - 1;
    if (below(dice, 2) == 0)
        call->columns = columns[below(dice, COUNT(columns))];
}

/* Each buffer of a call made longer and shorter, one at a time and two at a time, and its numbers changed. By m entries
   E2e goes from three columns to four, and back. */
static void try_lengths(const struct call *call, const int *roles, int count, long m, struct dice *dice) {
    const long changes[] = {-m, -4, -1, 0, 1, 4, m};
    for (int a = 0; a < count; a++)
        for (int b = 0; b < count; b++)
            for (size_t i = 0; i < COUNT(changes) * COUNT(changes); i++) {
                struct call other = *call;
                change_length(&other.given[roles[a]], (enum role)roles[a], changes[i % COUNT(changes)]);
                change_length(&other.given[roles[b]], (enum role)roles[b], changes[i / COUNT(changes)]);
                change_numbers(&other, dice);
                compare(&other, NULL);
            }
}

/* Of build, siblings, shape and recovery; the tables are those that the list has, or would have but for 18. */
static void try_list_lengths(const struct list *list, const struct mesh *t, struct dice *dice) {
    static const int of_build[] = {ELEMENTS, V2E, E2E, B2E, WORK}, of_siblings[] = {ELEMENTS, V2E, SIBLINGS, WORK},
                     of_shape[] = {ELEMENTS, WORK}, of_recovery[] = {V2E, E2E, ELEMENTS, WORK};
    struct call call = build_of(list, t->b2e.len);
    try_lengths(&call, of_build, COUNT(of_build), (long)list->m, dice);
    call = siblings_of(list);
    try_lengths(&call, of_siblings, COUNT(of_siblings), (long)list->m, dice);
    call = shape_of(list);
    try_lengths(&call, of_shape, COUNT(of_shape), (long)list->m, dice);
    call = recovery_of(t);
    try_lengths(&call, of_recovery, COUNT(of_recovery), (long)list->m, dice);
}

static void lengths(struct dice *dice) {
    static const int of_query[] = {ELEMENTS, V2E, E2E, B2E},
                     of_holes[] = {ELEMENTS, V2E, E2E, B2E, HOLE, LENGTHS, WORK};
    for (int i = 0; i < 12; i++) {
        struct list list = sheet(1 + below(dice, 3), 1 + below(dice, 3), 0, 0, (enum kinds)(i % 3), dice);
        add_spare(&list, below(dice, list.n + 1), (uint32_t)i % 4 * 30);
        long m = (long)list.m;
        struct mesh t;
        struct call call;
        if (!built(&list, &t))
            exit(2);
        try_list_lengths(&list, &t, dice);
        const struct exported *queries[] = {&code_calls[i % CODE_CALLS], &vertex_test, &vertex_lists[i % VERTEX_LISTS],
                                            &border_list, &start_call, &step_call};
        for (size_t j = 0; j < COUNT(queries); j++) {
            call = query_of(queries[j], &t, 1 + below(dice, 9));
            try_lengths(&call, of_query, COUNT(of_query), m, dice);
        }
        uint32_t ring_over[RECORD_LENGTH] = {9, 0, 1};
        call = query_of(&step_call, &t, 0);
        call.given[RECORD] = (struct slice){ring_over, RECORD_LENGTH};
        try_lengths(&call, of_query, COUNT(of_query), m, dice);
        call = holes_of(&t);
        try_lengths(&call, of_holes, COUNT(of_holes), m, dice);
        drop_tables(&t);
        drop_list(&list);
    }
}

/* Slices, most of which clash, with borders and without. */
static void lengths_of_clashes(struct dice *dice) {
    static const char *const patterns[] = {"TT", "WW", "WAW", "PLAAW", "WA"};
    for (size_t i = 0; i < 2 * COUNT(patterns); i++) {
        struct list list = slices(patterns[i / 2], (int)(i % 2));
        struct mesh t;
        if (tried_building(&list, &t)) {
            try_list_lengths(&list, &t, dice);
            drop_tables(&t);
        }
        drop_list(&list);
    }
}

/* A call, and the same with each buffer emptied by itself. */
static void try_emptied(struct call call) {
    compare(&call, NULL);
    for (int role = 0; role < RECORD; role++) {
        struct call emptied = call;
        emptied.given[role].len = 0;
        compare(&emptied, NULL);
    }
}

static void try_emptied_calls(const struct list *list) {
    const struct exported *of_number_1[] = {&vertex_test, &vertex_lists[0], &vertex_lists[1],
                                            &border_list, &start_call,      &step_call};
    struct mesh t;
    if (!built(list, &t))
        exit(2);
    try_emptied(look_at(list));
    try_emptied(build_of(list, t.b2e.len));
    try_emptied(siblings_of(list));
    try_emptied(shape_of(list));
    try_emptied(recovery_of(&t));
    for (size_t i = 0; i < CODE_CALLS; i++)
        try_emptied(query_of(&code_calls[i], &t, borzhanu_side(1, 1)));
    for (size_t i = 0; i < COUNT(of_number_1); i++)
        try_emptied(query_of(of_number_1[i], &t, 1));
    try_emptied(holes_of(&t));
    drop_tables(&t);
}

/* Buffers without entries, which one of the two placements hands over as null: all of them, of no vertices and no
   elements; all but V2e and the work buffer, of vertices alone; and each by itself, of a triangle. */
static void empty_buffers(struct dice *dice) {
    uint32_t row[4] = {1, 2, 3, 0};
    struct list nothing = {0, 0, 0, NULL}, vertices = {3, 0, 0, NULL}, triangle = {3, 1, 1, row};
    (void)dice;
    try_emptied_calls(&nothing);
    try_emptied_calls(&vertices);
    try_emptied_calls(&triangle);
}

/* Lengths that are fit but for 2^32 entries: none is cut to 32 bits. An element list that is only read then has too
   many elements. B2e of build, the work buffer and an output may be so long; the outputs of holes are tried. */
static void try_far(struct call call) {
    uint32_t of_elements = call.exported == &recover_call ? 2 : 1;
    for (int role = 0; role < WORK; role++)
        if (call.given[role].len != 0 && (role != B2E || call.exported->is_query))
            refuse_far(&call, (enum role)role, role == ELEMENTS ? of_elements : 2);
}

static void far_lengths(struct dice *dice) {
    uint32_t row[4] = {1, 2, 3, 0};
    struct list triangle = {3, 1, 1, row};
    struct mesh t;
    (void)dice;
    if (!built(&triangle, &t))
        exit(2);
    try_far(look_at(&triangle));
    try_far(build_of(&triangle, 3));
    try_far(siblings_of(&triangle));
    try_far(shape_of(&triangle));
    try_far(recovery_of(&t));
    /* told 0, a query may look at the list before it refuses */
    t.columns = 3;
    for (size_t i = 0; i < QUERIES; i++)
        try_far(query_of(queries[i], &t, 1));
    struct call holes = holes_of(&t);
    try_far(holes);
    compare_far(&holes, HOLE);
    compare_far(&holes, LENGTHS);
    drop_tables(&t);
}

/* B2e may have four entries for an element, whatever the columns of E2e, and no more. */
static void longest_b2e(const struct mesh *t) {
    struct mesh longest = *t;
    uint32_t most = (uint32_t)t->elements.len;
    for (uint32_t extra = 0; extra < 2; extra++) {
        longest.b2e = noise_of(B2E, most + extra);
        struct call call = query_of(&code_calls[0], &longest, borzhanu_border(most));
        compare(&call, NULL);
        call.number = borzhanu_border(most + 1);
        compare(&call, NULL);
    }
}

static void ask_largest_sheet(const struct mesh *t) {
    struct call call = recovery_of(t);
    compare(&call, NULL);
    call = query_of(&code_calls[1], t, borzhanu_side(BORZHANU_MAX_ELEMENTS, 4));
    compare(&call, NULL);
    call.number = borzhanu_side(BORZHANU_MAX_ELEMENTS + 1, 1);
    compare(&call, NULL);
    ask_walker(t, BORZHANU_MAX_VERTICES);
    longest_b2e(t);
}

static void ask_largest_fan(const struct mesh *t) {
    ask_list(&vertex_lists[1], t, 1);
    ask_list(&border_list, t, (uint32_t)t->b2e.len);
    longest_b2e(t);
}

static void largest_list(struct list list, void (*ask)(const struct mesh *t)) {
    struct mesh t;
    if (built(&list, &t)) {
        ask(&t);
        drop_tables(&t);
    }
    drop_list(&list);
}

/* n, the numbers of rows of the element list and of E2e and the sibling map, and the m that recovery is told, at their
   largest or one past it; then there is no need of a work buffer. */
static void about_the_largest(uint32_t n, size_t m, uint32_t e2e_rows) {
    int past = n > BORZHANU_MAX_VERTICES || m > BORZHANU_MAX_ELEMENTS || e2e_rows > BORZHANU_MAX_ELEMENTS;
    struct mesh t = {n, 0, noise_of(ELEMENTS, 4 * m), noise_of(V2E, n), noise_of(E2E, 4 * e2e_rows), noise_of(B2E, 9)};
    struct list list = {n, m, m, t.elements.at};
    struct call calls[] = {build_of(&list, 9), look_at(&list), recovery_of(&t), query_of(&code_calls[0], &t, 9),
                           siblings_of(&list), holes_of(&t), shape_of(&list)};
    calls[0].given[E2E] = t.e2e;
    calls[2].m = e2e_rows;
    calls[4].given[SIBLINGS] = noise_of(SIBLINGS, 4 * e2e_rows);
    for (size_t i = 0; i < COUNT(calls); i++) {
        if (past)
            calls[i].given[WORK].len = 0;
        compare(&calls[i], NULL);
    }
}

static void largest(struct dice *dice) {
    const uint32_t most = BORZHANU_MAX_ELEMENTS;
    largest_list(sheet(1000, 1000, 1, 1, QUADRILATERALS, dice), ask_largest_sheet);
    largest_list(fan(most - 1, 1), ask_largest_fan);
    largest_list(book(most, most), ask_largest_fan);
    for (uint32_t past = 0; past < 8; past++)
        about_the_largest(most + past % 2, most + past / 2 % 2, most + past / 4);
}

static const struct {
    const char *name;
    void (*run)(struct dice *dice);
} families[] = {
    {"printed cases", printed_cases},
    {"lists of no row", no_row},
    {"lists of one row", one_row},
    {"lists of two rows", two_rows},
    {"tables of one element", small_tables},
    {"tables of spare vertices", small_spare_tables},
    {"tables of noise", noise_tables},
    {"time of siblings", time_of_siblings},
    {"time of holes", time_of_holes},
    {"columns of lists", columns_of_lists},
    {"told columns", told_columns},
    {"recovery told m", recovery_told_m},
    {"queries of a mesh", mesh_functions},
    {"lengths", lengths},
    {"empty buffers", empty_buffers},
    {"lengths past 32 bits", far_lengths},
    {"time of meeting", time_of_meeting},
    {"small housings", small_housings},
    {"housings", housings},
    {"large housings", large_housings},
    {"the largest sizes", largest},
    {"time of told columns", time_of_told_columns},
    {"time of spare vertices", time_of_spare_vertices},
    {"many spare vertices", many_spare_vertices},
    {"every second row", every_second_row},
    {"elements that clash", elements_that_clash},
    {"lengths of clashes", lengths_of_clashes},
    {"edges of plates", edges_of_plates},
    {"openings of housings", openings_of_housings},
    {"known shapes", known_shapes},
    {"shapes of housings", shapes_of_housings},
    {"lengths of shapes", lengths_of_shapes},
    {"the largest shapes", largest_shapes},
    {"known swaps", known_swaps},
    {"swaps of every code", swaps_of_every_code},
    {"runs of swaps", runs_of_swaps},
    {"lengths of swaps", lengths_of_swaps},
    {"the largest swaps", largest_swaps},
    {"known splits", known_splits},
    {"midpoints", midpoints},
    {"splits of every code", splits_of_every_code},
    {"runs of splits", runs_of_splits},
    {"lengths of splits", lengths_of_splits},
    {"the largest splits", largest_splits},
    {"known contractions", known_contracts},
    {"contractions, every code", contracts_of_every_code},
    {"runs of contractions", runs_of_contracts},
    {"splits taken back", splits_taken_back},
    {"contractions to the last", contracts_to_the_last},
    {"lengths of contractions", lengths_of_contracts},
    {"the largest contractions", largest_contracts},
    {"shapes in runs", shapes_in_runs},
    {"known OFF files", known_offs},
    {"OFF files of lists", offs_of_lists},
    {"faces of OFF files", faces_of_offs},
    {"bad items of OFF files", bad_items_of_offs},
    {"bytes of OFF files", bytes_of_offs},
    {"damaged OFF files", damaged_offs},
    {"the largest OFF files", largest_offs},
    {"far lines of OFF files", far_offs},
};

static double seconds(void) {
    struct timespec now;
    clock_gettime(CLOCK_MONOTONIC, &now);
    return (double)now.tv_sec + 1e-9 * (double)now.tv_nsec;
}

int main(int argc, char **argv) {
    progress.seed = argc > 1 ? strtoull(argv[1], NULL, 10) : SEED;
    struct dice dice = {progress.seed};
    double start = seconds();
    check_header();
    prepare_calls();
    prepare_noise(&dice);
    printf("seed %llu\n", (unsigned long long)progress.seed);
    for (size_t i = 0; i < COUNT(families); i++) {
        unsigned long calls_before = progress.calls;
        double began = seconds();
        progress.family = families[i].name;
        families[i].run(&dice);
        printf("  %-24s %9lu calls  %6.1f s\n", progress.family, progress.calls - calls_before, seconds() - began);
        fflush(stdout);
    }
    printf("C host: %lu calls compared, all alike, seed %llu, %.1f s\n", progress.calls,
           (unsigned long long)progress.seed, seconds() - start);
    return 0;
}
