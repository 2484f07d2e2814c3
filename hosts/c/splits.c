#include "splits.h"

#include "borzhanu.h"
#include "points.h"
#include "room.h"
#include "runs.h"

#include <stdlib.h>
#include <string.h>

static const struct room for_inner = {1, 2};

static struct call split_of(const struct list *list, struct room room, size_t b2e_len, uint32_t *size, uint32_t code,
                            struct dice *dice) {
    return edit_with_points(&split_call, list, room, b2e_len, size, code, dice);
}

/* ---- worked out by hand ---- */

enum { ROWS = 8 };

/* A list, the code of a split, and what is answered; how many rows are appended, the new list and the new point. */
struct known {
    const char *name;
    uint32_t n, m, rows[ROWS][4], code;
    struct answer answer;
    uint32_t appended, split[ROWS][4];
    double point[3];
};

#define LISTING .n = 4, .m = 2, .rows = {{1, 2, 3, 0}, {1, 3, 4, 0}}
#define TETRAHEDRON .n = 4, .m = 4, .rows = {{1, 2, 3, 0}, {1, 4, 2, 0}, {2, 4, 3, 0}, {3, 4, 1, 0}}
#define MIXED_LIST .n = 5, .m = 2, .rows = {{1, 2, 3, 0}, {1, 3, 4, 5}}

static const struct known known[] = {
    {"the listing, 3 to 1", LISTING, .code = 11, .answer = {0, 4, 8}, .appended = 2,
     .split = {{5, 2, 3, 0}, {1, 5, 4, 0}, {1, 2, 5, 0}, {5, 3, 4, 0}}, .point = {2, 5, -4}},
    {"the listing, 1 to 3", LISTING, .code = 17, .answer = {0, 4, 8}, .appended = 2,
     .split = {{5, 2, 3, 0}, {1, 5, 4, 0}, {5, 3, 4, 0}, {1, 2, 5, 0}}, .point = {2, 5, -4}},
    {"the listing, 1 to 2", LISTING, .code = 9, .answer = {0, 5, 7}, .appended = 1,
     .split = {{1, 5, 3, 0}, {1, 3, 4, 0}, {5, 2, 3, 0}}, .point = {1.5, 2.5, -3}},
    {"the listing, 4 to 1", LISTING, .code = 19, .answer = {0, 5, 7}, .appended = 1,
     .split = {{1, 2, 3, 0}, {5, 3, 4, 0}, {1, 3, 5, 0}}, .point = {2.5, 8.5, -5}},
    {"a lone triangle, 2 to 3", .n = 3, .m = 1, .rows = {{1, 2, 3, 0}}, .code = 10, .answer = {0, 4, 5}, .appended = 1,
     .split = {{1, 2, 4, 0}, {1, 4, 3, 0}}, .point = {2.5, 6.5, -5}},
    {"each corner in another place", .n = 5, .m = 2, .rows = {{5, 2, 4, 0}, {2, 5, 1, 0}}, .code = 17,
     .answer = {0, 4, 8}, .appended = 2, .split = {{5, 6, 4, 0}, {2, 6, 1, 0}, {6, 5, 1, 0}, {6, 2, 4, 0}},
     .point = {3.5, 14.5, -7}},
    {"a tetrahedron", TETRAHEDRON, .code = 9, .answer = {0, 0, 9}, .appended = 2,
     .split = {{1, 5, 3, 0}, {5, 4, 2, 0}, {2, 4, 3, 0}, {3, 4, 1, 0}, {5, 2, 3, 0}, {1, 4, 5, 0}},
     .point = {1.5, 2.5, -3}},
    {"a tetrahedron, from the other side", TETRAHEDRON, .code = 19, .answer = {0, 0, 9}, .appended = 2,
     .split = {{1, 5, 3, 0}, {5, 4, 2, 0}, {2, 4, 3, 0}, {3, 4, 1, 0}, {1, 4, 5, 0}, {5, 2, 3, 0}},
     .point = {1.5, 2.5, -3}},
    {"a border beside a quadrilateral", MIXED_LIST, .code = 9, .answer = {0, 6, 8}, .appended = 1,
     .split = {{1, 6, 3, 0}, {1, 3, 4, 5}, {6, 2, 3, 0}}, .point = {1.5, 2.5, -3}},
    {"a quadrilateral near by", .n = 6, .m = 3, .rows = {{1, 2, 3, 0}, {1, 3, 4, 0}, {3, 2, 5, 6}}, .code = 17,
     .answer = {0, 6, 11}, .appended = 2,
     .split = {{7, 2, 3, 0}, {1, 7, 4, 0}, {3, 2, 5, 6}, {7, 3, 4, 0}, {1, 2, 7, 0}}, .point = {2, 5, -4}},
    {"spare vertices", .n = 9, .m = 2, .rows = {{1, 2, 3, 0}, {1, 3, 4, 0}}, .code = 9, .answer = {0, 5, 7},
     .appended = 1, .split = {{1, 10, 3, 0}, {1, 3, 4, 0}, {10, 2, 3, 0}}, .point = {1.5, 2.5, -3}},
};

static void check_point(struct slice points, uint32_t v, const double *known, const char *name) {
    for (size_t i = 0; i < 3; i++)
        if (number_at(points, 3 * (v - 1) + i) != known[i])
            fail_known(name);
}

static void check_known_split(const struct known *c, struct dice *dice) {
    struct list list = list_of_rows(c->n, c->m, c->rows), split = list_of_rows(c->n + 1, c->m + c->appended, c->split);
    struct slice results[ROLES];
    uint32_t size[SIZE_LENGTH];
    struct call call = split_of(&list, (struct room){1, c->appended}, c->answer.first, size, c->code, dice);
    put_known_points(call.given[POINTS], c->n);
    if (!is_answer(compare(&call, results), c->answer))
        fail_known(c->name);
    check_point(results[POINTS], c->n + 1, c->point, c->name);
    struct mesh left = mesh_left(results, c->answer.first);
    check_left(&left, &split);
    drop_tables(&left);
    drop_buffers(&call);
}

void known_splits(struct dice *dice) {
    for (size_t i = 0; i < COUNT(known); i++)
        check_known_split(&known[i], dice);
    known_refusals(&split_call, dice);
}

/* ---- midpoints ---- */

/* Two numbers and what lies midway by the rule, by their bits. */
static const uint64_t halves[][3] = {
    {0x0000000000000000, 0x0000000000000000, 0x0000000000000000},
    {0x8000000000000000, 0x8000000000000000, 0x8000000000000000}, /* -0 */
    {0x8000000000000000, 0x0000000000000000, 0x0000000000000000},
    {0x3FF0000000000000, 0xBFF0000000000000, 0x0000000000000000}, /* 1 and -1 */
    {0x3FF0000000000000, 0x4000000000000000, 0x3FF8000000000000}, /* 1 and 2: 1.5 */
    {0x3FB999999999999A, 0x3FC999999999999A, 0x3FC3333333333334}, /* 0.1 and 0.2: half of 0.30000000000000004 */
    {0x4330000000000000, 0x4330000000000000, 0x4330000000000000}, /* 2^52 twice */
    {0x4330000000000000, 0x432FFFFFFFFFFFFE, 0x432FFFFFFFFFFFFF}, /* 2^52 and 2^52 - 1: 2^52 - 0.5 */
    {0x4330000000000000, 0x3FF0000000000000, 0x4320000000000001}, /* 2^52 and 1: 2^51 + 0.5 */
    {0xC330000000000000, 0x432FFFFFFFFFFFFE, 0xBFE0000000000000}, /* -2^52 and 2^52 - 1: -0.5 */
    {0x4340000000000000, 0x3FF0000000000000, 0x4330000000000000}, /* 2^53 and 1: the sum is rounded to 2^53 */
    {0x4340000000000001, 0x3FF0000000000000, 0x4330000000000002}, /* 2^53 + 2 and 1: to 2^53 + 4 */
    {0x0000000000000001, 0x0000000000000001, 0x0000000000000001}, /* halved before they are added: 0 */
    {0x0000000000000001, 0x0000000000000000, 0x0000000000000000}, /* half of the least, to even */
    {0x8000000000000001, 0x0000000000000000, 0x8000000000000000},
    {0x0000000000000003, 0x0000000000000000, 0x0000000000000002},
    {0x0000000000000001, 0x0000000000000002, 0x0000000000000002},
    {0x0000000000000003, 0x8000000000000001, 0x0000000000000001},
    {0x000FFFFFFFFFFFFF, 0x0010000000000000, 0x0010000000000000}, /* the sum is halved to even */
    {0x0010000000000000, 0x8000000000000001, 0x0008000000000000},
    {0x7FEFFFFFFFFFFFFF, 0x7FEFFFFFFFFFFFFF, 0x7FF0000000000000}, /* the greatest twice: the sum is infinite */
    {0x7FEFFFFFFFFFFFFF, 0xFFEFFFFFFFFFFFFF, 0x0000000000000000},
    {0xFFEFFFFFFFFFFFFF, 0xFFEFFFFFFFFFFFFF, 0xFFF0000000000000},
    {0x7FE0000000000000, 0x7FDFFFFFFFFFFFFF, 0x7FF0000000000000}, /* 2^1024 - 2^970 is rounded up to infinity */
    {0x7FE0000000000000, 0x7FDFFFFFFFFFFFFE, 0x7FDFFFFFFFFFFFFF}, /* the greatest, halved */
    {0x7FF0000000000000, 0x3FF0000000000000, 0x7FF0000000000000},
    {0xFFF0000000000000, 0x7FEFFFFFFFFFFFFF, 0xFFF0000000000000},
    {0x7FF0000000000000, 0x7FF0000000000000, 0x7FF0000000000000},
};

static const uint32_t triangle[1][4] = {{1, 2, 3, 0}}, listing[2][4] = {{1, 2, 3, 0}, {1, 3, 4, 0}};

/* Three pairs of numbers as the points of vertices 1 and 2, or 1 and 3. Returns what the split leaves of the points. */
static struct slice split_between(const uint64_t (*pairs)[2], int inner, struct slice *results, struct dice *dice) {
    struct list list = inner ? list_of_rows(4, 2, listing) : list_of_rows(3, 1, triangle);
    uint32_t size[SIZE_LENGTH], to = inner ? 3 : 2;
    /* an inner edge is named from either end */
    uint32_t code = !inner ? borzhanu_side(1, 1) : below(dice, 2) == 0 ? borzhanu_side(1, 3) : borzhanu_side(2, 1);
    struct call call = split_of(&list, for_inner, 4, size, code, dice);
    for (size_t i = 0; i < 3; i++) {
        put_bits(call.given[POINTS], i, pairs[i][0]);
        put_bits(call.given[POINTS], 3 * (to - 1) + i, pairs[i][1]);
    }
    if (compare(&call, results).refusal != 0)
        fail("an edge isn't split");
    drop_buffers(&call);
    return results[POINTS];
}

static void check_halves(const uint64_t *known, int inner, struct dice *dice) {
    /* the two numbers either way round, and others between them */
    const uint64_t pairs[3][2] = {{known[0], known[1]}, {0x3FF0000000000000, 0x7FF8000000000000}, {known[1], known[0]}};
    struct slice results[ROLES], points = split_between(pairs, inner, results, dice);
    size_t first = inner ? 12 : 9;
    if (memcmp(points.at + 2 * first, &known[2], sizeof *known) != 0 ||
        memcmp(points.at + 2 * (first + 2), &known[2], sizeof *known) != 0)
        fail("a number isn't midway as worked out");
}

void midpoints(struct dice *dice) {
    struct slice results[ROLES];
    for (size_t i = 0; i < 2 * COUNT(halves); i++)
        check_halves(halves[i / 2], i % 2, dice);
    for (size_t i = 0; i < SPECIAL_NUMBERS * SPECIAL_NUMBERS; i++) {
        const uint64_t x = special_numbers[i % SPECIAL_NUMBERS], y = special_numbers[i / SPECIAL_NUMBERS];
        const uint64_t pairs[3][2] = {{x, y}, {y, x}, {x, special_numbers[below(dice, SPECIAL_NUMBERS)]}};
        split_between(pairs, i % 2, results, dice);
    }
}

/* ---- every code ---- */

static void try_code(const struct list *list, uint32_t code, struct dice *dice) {
    uint32_t size[SIZE_LENGTH];
    struct room room = below(dice, 4) == 0 ? (struct room){below(dice, 2), below(dice, 3)} : for_inner;
    size_t b2e_len = below(dice, 4) == 0 ? below(dice, list->n + 1) : list->n + 1;
    struct call call = split_of(list, room, b2e_len, size, code, dice);
    counted(compare(&call, NULL));
    drop_buffers(&call);
}

void splits_of_every_code(struct dice *dice) {
    static const uint32_t numbers[] = {0, 3, 4, 6, 7, 8, 9, 11, 15, 18, 19};
    try_every_code(try_code, dice);
    check_seen(numbers, COUNT(numbers), 50);
}

/* ---- runs ---- */

/* Three edits in four are splits, and there is room for one in three: they go on until the buffers are full, and then
   some more. */
static void run_of_splits(struct list list, int edits, struct dice *dice) {
    struct room room = {(uint32_t)edits / 3, 2 * (uint32_t)edits / 3};
    struct run run;
    disguise(&list, dice);
    start_run(&run, &list, room, dice);
    while (edits-- > 0) {
        uint32_t code = any_code(&run, dice);
        if (below(dice, 4) != 0)
            split_in_run(&run, code);
        else
            swap_in_run(&run, code);
    }
    drop_run(&run);
    drop_list(&list);
}

void runs_of_splits(struct dice *dice) {
    static const uint32_t numbers[] = {0, 6, 9, 11, 15, 19};
    for (int i = 0; i < 16; i++)
        run_on_housings(2 + (uint32_t)i % 4, 60, run_of_splits, dice);
    run_on_housings(12, 120, run_of_splits, dice);
    run_on_housings(50, 9, run_of_splits, dice);
    check_seen(numbers, COUNT(numbers), 10);
}

/* ---- lengths ---- */

/* Each buffer too short for the old mesh: 2. Long enough for it and too short for the new one: 19, B2e or not. */
static void try_shorter(const struct list *list, const struct call *call, struct answer answer, struct dice *dice) {
    const size_t columns = columns_of((struct slice){list->rows, 4 * list->m});
    for (int i = 0; i < lent_to(call); i++) {
        if (lent[i] == B2E)
            continue;
        size_t old = length_for(lent[i], columns, list->n, list->m);
        size_t enough = answer.refusal == 0 ? call->given[lent[i]].len / (lent[i] == POINTS ? 2 : 1) : old;
        for (size_t len = old == 0 ? 0 : old - 1; len < enough; len++) {
            struct call other = *call;
            own_buffers(&other);
            if (below(dice, 2) == 0)
                lengthen_any(&other, dice);
            if (below(dice, 2) == 0)
                set_length(&other.given[B2E], B2E, 0);
            set_length(&other.given[lent[i]], lent[i], len);
            compare_with(&other, len < old ? 2 : 19, 0);
            counted((struct answer){len < old ? 2 : 19, 0, 0});
            drop_buffers(&other);
        }
    }
}

/* B2e of every length below the new k: 9, which names it. */
static void try_short_b2e(const struct call *call, struct answer answer, struct dice *dice) {
    for (size_t len = 0; len < answer.first; len++) {
        struct call other = *call;
        own_buffers(&other);
        lengthen_any(&other, dice);
        set_length(&other.given[B2E], B2E, len);
        compare_with(&other, 9, answer.first);
        counted((struct answer){9, 0, 0});
        drop_buffers(&other);
    }
}

/* A split of this code in buffers that are just long enough: for the new mesh where there is one. */
static struct call fitting_split(const struct list *list, uint32_t *size, uint32_t code, struct answer *answer,
                                 struct dice *dice) {
    struct call call = split_of(list, for_inner, list->n + 1, size, code, dice);
    struct slice results[ROLES];
    *answer = compare(&call, results);
    struct room room = {results[SIZE].at[0] - list->n, results[SIZE].at[1] - (uint32_t)list->m};
    drop_buffers(&call);
    return split_of(list, room, answer->refusal == 0 ? answer->first : 0, size, code, dice);
}

static void try_lengths(struct list list, struct dice *dice) {
    uint32_t size[SIZE_LENGTH];
    disguise(&list, dice);
    for (uint32_t code = 0; code < one_past_codes(&list); code++) {
        struct answer answer;
        struct call call = fitting_split(&list, size, code, &answer, dice);
        compare_answer(&call, answer);
        try_shorter(&list, &call, answer, dice);
        if (answer.refusal == 0)
            try_short_b2e(&call, answer, dice);
        if (below(dice, 3) == 0)
            try_longer(&call, dice);
        if (below(dice, 40) == 0)
            try_other_lengths(&call, dice);
        drop_buffers(&call);
    }
    drop_list(&list);
}

/* A quadrilateral past the last row doesn't count, and the new rows stand over it: E2e is in three columns. */
static void check_row_past(struct dice *dice) {
    static const uint32_t past[4] = {1, 2, 3, 4};
    struct list list = list_of_rows(4, 2, listing);
    uint32_t size[SIZE_LENGTH];
    struct call call = split_of(&list, (struct room){1, 3}, 5, size, borzhanu_side(1, 1), dice);
    memcpy(call.given[ELEMENTS].at + 8, past, sizeof past);
    memcpy(call.given[ELEMENTS].at + 12, past, sizeof past);
    set_length(&call.given[E2E], E2E, 9);
    compare_answer(&call, (struct answer){0, 5, 7});
    set_length(&call.given[E2E], E2E, 8);
    compare_with(&call, 19, 0);
    set_length(&call.given[E2E], E2E, 5);
    compare_with(&call, 2, 0);
    drop_buffers(&call);
}

/* The listing, or nothing, in buffers that are very long or empty. */
static void try_extreme_lengths(uint32_t n, uint32_t m, struct dice *dice) {
    struct list list = list_of_rows(n, m, listing);
    uint32_t size[SIZE_LENGTH];
    struct call call = split_of(&list, for_inner, 5, size, borzhanu_side(1, 3), dice);
    if (m != 0)
        try_far_lengths(&call);
    try_empty_buffers(call);
    drop_buffers(&call);
}

void lengths_of_splits(struct dice *dice) {
    static const uint32_t numbers[] = {0, 2, 9, 11, 15, 19};
    check_row_past(dice);
    try_lengths(sheet(2, 2, 0, 0, TRIANGLES, dice), dice);
    try_lengths(sheet(3, 1, 1, 0, MIXED, dice), dice);
    try_lengths(bipyramid(3), dice);
    try_extreme_lengths(0, 0, dice);
    try_extreme_lengths(3, 0, dice);
    try_extreme_lengths(4, 2, dice);
    check_seen(numbers, COUNT(numbers), 2);
}

/* ---- the largest sizes ---- */

static void check_listing_sizes(struct dice *dice) {
    struct list list = list_of_rows(4, 2, listing);
    uint32_t size[SIZE_LENGTH];
    struct call call = split_of(&list, for_inner, 4, size, borzhanu_side(1, 3), dice);
    check_sizes(&call);
    drop_buffers(&call);
}

/* The listing among so many vertices. */
static void split_among(uint32_t n, struct answer inner, struct answer border, struct dice *dice) {
    static const uint32_t codes[] = {11, 9, 0, 8};
    const struct answer answers[] = {inner, border, {11, 0, 0}, {15, 0, 0}};
    struct list list = list_of_rows(n, 2, listing);
    uint32_t size[SIZE_LENGTH];
    struct call call = split_of(&list, for_inner, 5, size, 0, dice);
    for (size_t i = 0; i < COUNT(codes); i++) {
        call.number = codes[i];
        compare_answer(&call, answers[i]);
    }
    drop_buffers(&call);
}

/* One of the largest lists; its side is on the border or not, and then the answer is known. */
static void split_large(const struct list *list, uint32_t code, struct answer answer, struct dice *dice) {
    static const double allowed = 5;
    uint32_t size[SIZE_LENGTH];
    struct call call = split_of(list, for_inner, 8, size, code, dice);
    compare_answer(&call, answer);
    check_time(&call, 1, allowed);
    drop_buffers(&call);
}

/* The side that runs so, which the list has. */
static uint32_t side_from(const struct list *list, uint32_t from, uint32_t to) {
    for (uint32_t f = 1; f <= list->m; f++)
        for (uint32_t i = 0; i < 3; i++)
            if (list->rows[4 * (f - 1) + i] == from && list->rows[4 * (f - 1) + (i + 1) % 3] == to)
                return borzhanu_side(f, i + 1);
    return 0;
}

/* A closed surface of as many triangles as there can be; then the last of them goes, which leaves a border of three, and
   then the one beside it. */
void largest_splits(struct dice *dice) {
    const struct answer no_room = {19, 0, 0};
    const uint32_t edges = 3 * BORZHANU_MAX_ELEMENTS / 2;
    check_listing_sizes(dice);
    split_among(BORZHANU_MAX_VERTICES, no_room, no_room, dice);
    split_among(BORZHANU_MAX_VERTICES - 1, (struct answer){0, 4, 8}, (struct answer){0, 5, 7}, dice);
    struct list list = sheet(1000, 500, 1, 1, TRIANGLES, dice);
    const uint32_t *last = list.rows + 4 * (list.m - 1);
    split_large(&list, borzhanu_side(BORZHANU_MAX_ELEMENTS, 1), no_room, dice);
    list.m--;
    split_large(&list, borzhanu_side(1, 1), no_room, dice);
    split_large(&list, side_from(&list, last[1], last[0]), (struct answer){0, 4, edges + 2}, dice);
    list.m--;
    split_large(&list, borzhanu_side(1, 1), (struct answer){0, 4, edges - 1 + 3}, dice);
    drop_list(&list);
}
