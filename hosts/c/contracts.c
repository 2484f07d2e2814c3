#include "contracts.h"

#include "borzhanu.h"
#include "editing.h"
#include "points.h"
#include "room.h"
#include "runs.h"

#include <stdlib.h>
#include <string.h>

static const struct room no_more = {0, 0};

static struct call contract_of(const struct list *list, struct room room, size_t b2e_len, uint32_t *size, uint32_t code,
                               struct dice *dice) {
    return edit_with_points(&contract_call, list, room, b2e_len, size, code, dice);
}

/* ---- worked out by hand ---- */

enum { ROWS = 8 };

/* A list, the code of a contraction, how many entries B2e has, and what is answered; where that is no refusal, the
   vertex that goes and the new list. */
struct known {
    const char *name;
    uint32_t n, m, rows[ROWS][4], code, b2e_len;
    struct answer answer;
    uint32_t gone, elements, contracted[ROWS][4];
};

#define LISTING .n = 4, .m = 2, .rows = {{1, 2, 3, 0}, {1, 3, 4, 0}}
#define TETRAHEDRON .n = 4, .m = 4, .rows = {{1, 2, 3, 0}, {1, 4, 2, 0}, {2, 4, 3, 0}, {3, 4, 1, 0}}
#define MIXED_LIST .n = 5, .m = 2, .rows = {{1, 2, 3, 0}, {1, 3, 4, 5}}
/* four triangles about vertex 5 */
#define WHEEL .n = 5, .m = 4, .rows = {{1, 2, 5, 0}, {2, 3, 5, 0}, {3, 4, 5, 0}, {4, 1, 5, 0}}
/* two wheels on one rim, 2 to 5, about 1 and 6 */
#define OCTAHEDRON \
    .n = 6, .m = 8, \
    .rows = {{1, 2, 3, 0}, {1, 3, 4, 0}, {1, 4, 5, 0}, {1, 5, 2, 0}, \
             {6, 3, 2, 0}, {6, 4, 3, 0}, {6, 5, 4, 0}, {6, 2, 5, 0}}
/* a band about the rims 1, 2, 3 and 4, 5, 6 */
#define BAND {1, 2, 5, 0}, {1, 5, 4, 0}, {2, 3, 6, 5}, {3, 1, 4, 6}
#define PINCHED .b2e_len = 9, .answer = {20, 0, 0}
#define STRANDED .b2e_len = 9, .answer = {21, 0, 0}

static const struct known known[] = {
    {"a wheel's rim, 1 to 2", WHEEL, .code = 9, .b2e_len = 3, .answer = {0, 3, 6}, .gone = 2, .elements = 3,
     .contracted = {{4, 1, 2, 0}, {1, 3, 2, 0}, {3, 4, 2, 0}}},
    {"a wheel's rim, the last row", WHEEL, .code = 33, .b2e_len = 3, .answer = {0, 3, 6}, .gone = 1, .elements = 3,
     .contracted = {{4, 2, 1, 0}, {2, 3, 1, 0}, {3, 4, 1, 0}}},
    {"a wheel, a is the last vertex", WHEEL, .code = 11, .b2e_len = 4, .answer = {0, 4, 5}, .gone = 1, .elements = 2,
     .contracted = {{3, 4, 1, 0}, {2, 3, 1, 0}}},
    {"a wheel, b is the last vertex", WHEEL, .code = 34, .b2e_len = 4, .answer = {0, 4, 5}, .gone = 5, .elements = 2,
     .contracted = {{3, 4, 1, 0}, {2, 3, 1, 0}}},
    {"a wheel, 3 to 5: row 4 in the gap", WHEEL, .code = 18, .b2e_len = 4, .answer = {0, 4, 5}, .gone = 5,
     .elements = 2, .contracted = {{1, 2, 3, 0}, {4, 1, 3, 0}}},
    {"a wheel, 4 to 5: the last two rows", WHEEL, .code = 26, .b2e_len = 4, .answer = {0, 4, 5}, .gone = 5,
     .elements = 2, .contracted = {{1, 2, 4, 0}, {2, 3, 4, 0}}},
    {"the listing, 1 to 2", LISTING, .code = 9, .b2e_len = 3, .answer = {0, 3, 3}, .gone = 2, .elements = 1,
     .contracted = {{1, 3, 2, 0}}},
    {"the listing, 2 to 3", LISTING, .code = 10, .b2e_len = 3, .answer = {0, 3, 3}, .gone = 3, .elements = 1,
     .contracted = {{1, 2, 3, 0}}},
    {"the listing, 3 to 4", LISTING, .code = 18, .b2e_len = 3, .answer = {0, 3, 3}, .gone = 4, .elements = 1,
     .contracted = {{1, 2, 3, 0}}},
    {"the listing, 4 to 1", LISTING, .code = 19, .b2e_len = 4, .answer = {0, 3, 3}, .gone = 1, .elements = 1,
     .contracted = {{1, 2, 3, 0}}},
    {"the listing among spare vertices", .n = 6, .m = 2, .rows = {{1, 2, 4, 0}, {1, 4, 5, 0}}, .code = 18, .b2e_len = 3,
     .answer = {0, 3, 3}, .gone = 5, .elements = 1, .contracted = {{1, 2, 4, 0}}},
    {"a quadrilateral is left", MIXED_LIST, .code = 10, .b2e_len = 4, .answer = {0, 4, 4}, .gone = 3, .elements = 1,
     .contracted = {{1, 2, 4, 3}}},
    {"an octahedron's waist, 2 to 3", OCTAHEDRON, .code = 10, .b2e_len = 0, .answer = {0, 0, 9}, .gone = 3,
     .elements = 6, .contracted = {{3, 5, 4, 0}, {1, 2, 4, 0}, {1, 4, 5, 0}, {1, 5, 2, 0}, {3, 2, 5, 0}, {3, 4, 2, 0}}},
    {"an octahedron, a is the last vertex", OCTAHEDRON, .code = 41, .b2e_len = 2, .answer = {0, 0, 9}, .gone = 3,
     .elements = 6, .contracted = {{1, 2, 3, 0}, {1, 3, 4, 0}, {1, 4, 5, 0}, {1, 5, 2, 0}, {3, 5, 4, 0}, {3, 2, 5, 0}}},
    /* 20 */
    {"a band of three", .n = 6, .m = 4, .rows = {BAND}, .code = 9, PINCHED},
    {"20 before 21", .n = 7, .m = 5, .rows = {BAND, {2, 1, 7, 0}}, .code = 9, PINCHED},
    {"20 before 9", .n = 6, .m = 4, .rows = {BAND}, .code = 9, .b2e_len = 0, .answer = {20, 0, 0}},
    {"the third corner alone is common", .n = 5, .m = 3,
     .rows = {{1, 2, 3, 0}, {1, 3, 4, 0}, {3, 2, 5, 0}}, .code = 9, .b2e_len = 4, .answer = {0, 4, 5}, .gone = 2,
     .elements = 2, .contracted = {{3, 1, 2, 0}, {1, 3, 4, 0}}},
    {"two triangles on a tube of three", .n = 6, .m = 6,
     .rows = {{1, 2, 5, 0}, {1, 5, 4, 0}, {2, 3, 6, 0}, {2, 6, 5, 0}, {3, 1, 4, 0}, {3, 4, 6, 0}}, .code = 9, PINCHED},
    /* 21 */
    {"a lone triangle, first side", .n = 3, .m = 1, .rows = {{1, 2, 3, 0}}, .code = 9, STRANDED},
    {"a lone triangle, third side", .n = 3, .m = 1, .rows = {{1, 2, 3, 0}}, .code = 11, STRANDED},
    {"a triangle apart", .n = 6, .m = 2, .rows = {{1, 2, 3, 0}, {4, 5, 6, 0}}, .code = 9, STRANDED},
    {"both third corners", LISTING, .code = 11, STRANDED},
    {"the own third corner", .n = 5, .m = 3, .rows = {{1, 2, 3, 0}, {1, 3, 4, 0}, {1, 4, 5, 0}}, .code = 11, STRANDED},
    {"the partner's third corner", .n = 5, .m = 3, .rows = {{1, 2, 3, 0}, {1, 3, 4, 0}, {1, 4, 5, 0}}, .code = 17,
     STRANDED},
    {"21 before 9", LISTING, .code = 17, .b2e_len = 0, .answer = {21, 0, 0}},
    /* the new list */
    {"two fans", .n = 6, .m = 4, .rows = {{1, 2, 3, 0}, {1, 3, 4, 0}, {2, 1, 5, 0}, {4, 3, 6, 0}}, .code = 11,
     .b2e_len = 0, .answer = {8, 3, 0}},
    {"two fans, from the other side", .n = 6, .m = 4, .rows = {{1, 2, 3, 0}, {1, 3, 4, 0}, {2, 1, 5, 0}, {4, 3, 6, 0}},
     .code = 17, .b2e_len = 9, .answer = {8, 1, 0}},
    {"a tetrahedron", TETRAHEDRON, .code = 9, .b2e_len = 0, .answer = {18, 1, 2}},
    {"a tetrahedron, the last row", TETRAHEDRON, .code = 34, .b2e_len = 9, .answer = {18, 1, 2}},
    {"a triangle on two sides of a quadrilateral", .n = 5, .m = 3, .rows = {{1, 2, 3, 0}, {1, 3, 4, 0}, {3, 2, 5, 4}},
     .code = 9, .b2e_len = 0, .answer = {18, 1, 2}},
    {"B2e without an entry", LISTING, .code = 9, .b2e_len = 0, .answer = {9, 3, 0}},
    {"B2e one too short", LISTING, .code = 18, .b2e_len = 2, .answer = {9, 3, 0}},
    {"B2e one too short, an inner edge", WHEEL, .code = 11, .b2e_len = 3, .answer = {9, 4, 0}},
};

/* Where vertex v was before: its point is still that one's. */
static void check_known_points(struct slice points, const struct known *c) {
    for (uint32_t v = 1; v < c->n; v++) {
        double was = v == c->gone ? c->n : v;
        if (number_at(points, 3 * (v - 1)) != was || number_at(points, 3 * (v - 1) + 1) != was * was ||
            number_at(points, 3 * (v - 1) + 2) != -2 * was)
            fail_known(c->name);
    }
}

static void check_known(const struct known *c, struct dice *dice) {
    struct list list = list_of_rows(c->n, c->m, c->rows);
    struct list contracted = list_of_rows(c->n - 1, c->elements, c->contracted);
    struct slice results[ROLES];
    uint32_t size[SIZE_LENGTH];
    struct call call = contract_of(&list, no_more, c->b2e_len, size, c->code, dice);
    put_known_points(call.given[POINTS], c->n);
    if (!is_answer(compare(&call, results), c->answer))
        fail_known(c->name);
    if (c->answer.refusal == 0) {
        check_known_points(results[POINTS], c);
        struct mesh left = mesh_left(results, c->answer.first);
        check_left(&left, &contracted);
        drop_tables(&left);
    }
    drop_buffers(&call);
}

/* Of the wheel's rim, 1 to 2: the points of 1, which stays, and of 5, which becomes 2, are of the same bits as before,
   numbers or not. */
static void check_moved_bits(uint64_t bits, struct dice *dice) {
    static const uint32_t wheel[4][4] = {{1, 2, 5, 0}, {2, 3, 5, 0}, {3, 4, 5, 0}, {4, 1, 5, 0}};
    struct list list = list_of_rows(5, 4, wheel);
    struct slice results[ROLES];
    uint32_t size[SIZE_LENGTH];
    struct call call = contract_of(&list, no_more, 3, size, borzhanu_side(1, 1), dice);
    for (size_t i = 0; i < 3; i++) {
        put_bits(call.given[POINTS], i, bits);
        put_bits(call.given[POINTS], 12 + i, bits);
    }
    if (compare(&call, results).refusal != 0)
        fail("an edge isn't contracted");
    for (size_t i = 0; i < 6; i++)
        if (memcmp(results[POINTS].at + 2 * i, &bits, sizeof bits) != 0)
            fail("a point has other bits than before");
    drop_buffers(&call);
}

void known_contracts(struct dice *dice) {
    for (size_t i = 0; i < COUNT(known); i++)
        check_known(&known[i], dice);
    for (size_t i = 0; i < SPECIAL_NUMBERS; i++)
        check_moved_bits(special_numbers[i], dice);
    known_refusals(&contract_call, dice);
}

/* ---- every code ---- */

static void try_code(const struct list *list, uint32_t code, struct dice *dice) {
    uint32_t size[SIZE_LENGTH];
    struct room room = {below(dice, 2), below(dice, 2)};
    size_t b2e_len = below(dice, 4) == 0 ? below(dice, list->n + 1) : list->n;
    struct call call = contract_of(list, room, b2e_len, size, code, dice);
    counted(compare(&call, NULL));
    drop_buffers(&call);
}

void contracts_of_every_code(struct dice *dice) {
    static const uint32_t numbers[] = {0, 3, 4, 6, 7, 8, 9, 11, 15, 18, 20, 21};
    try_every_code(try_code, dice);
    check_seen(numbers, COUNT(numbers), 50);
}

/* ---- runs ---- */

static void run_of_contracts(struct list list, int edits, struct dice *dice) {
    struct room room = {(uint32_t)edits / 4, (uint32_t)edits / 3};
    struct run run;
    disguise(&list, dice);
    start_run(&run, &list, room, dice);
    while (edits-- > 0)
        edit_any(&run, dice);
    drop_run(&run);
    drop_list(&list);
}

void runs_of_contracts(struct dice *dice) {
    static const uint32_t numbers[] = {0, 6, 8, 11, 15, 18, 19, 20, 21};
    for (int i = 0; i < 16; i++)
        run_on_housings(2 + (uint32_t)i % 4, 90, run_of_contracts, dice);
    run_on_housings(12, 150, run_of_contracts, dice);
    run_on_housings(50, 9, run_of_contracts, dice);
    check_seen(numbers, COUNT(numbers), 10);
}

/* ---- splits taken back ---- */

/* The buffer begins with what it held. */
static void check_begins(struct slice now, struct slice held, const char *what) {
    if (held.len != 0 && memcmp(now.at, held.at, held.len * sizeof(uint32_t)) != 0)
        mismatch(what);
}

static void take_back(struct run *run, uint32_t code) {
    struct mesh old = mesh_left(run->call.given, run->k);
    struct slice points = copied((struct slice){run->call.given[POINTS].at, ENTRIES_OF_A_POINT * (size_t)old.n});
    uint32_t size[SIZE_LENGTH] = {run->size[0], run->size[1]};
    if (split_in_run(run, code).refusal == 0) {
        if (contract_in_run(run, code).refusal != 0 || run->k != old.b2e.len)
            mismatch("a split isn't taken back by the contraction of its code");
        const struct slice *now = run->call.given;
        check_begins(now[SIZE], (struct slice){size, SIZE_LENGTH}, "a split taken back left another n or m");
        check_begins(now[ELEMENTS], old.elements, "a split taken back left another list");
        check_begins(now[V2E], old.v2e, "a split taken back left another V2e");
        check_begins(now[E2E], old.e2e, "a split taken back left another E2e");
        check_begins(now[B2E], old.b2e, "a split taken back left another B2e");
        check_begins(now[POINTS], points, "a split taken back left other points");
    }
    drop_tables(&old);
    free(points.at);
}

static void run_taken_back(struct list list, int edits, struct dice *dice) {
    struct room room = {(uint32_t)edits / 4, (uint32_t)edits / 2};
    struct run run;
    disguise(&list, dice);
    start_run(&run, &list, room, dice);
    while (edits-- > 0) {
        take_back(&run, any_code(&run, dice));
        if (below(dice, 4) == 0)
            split_in_run(&run, any_code(&run, dice));
    }
    drop_run(&run);
    drop_list(&list);
}

void splits_taken_back(struct dice *dice) {
    static const uint32_t numbers[] = {0, 11, 15};
    for (int i = 0; i < 8; i++)
        run_on_housings(2 + (uint32_t)i % 4, 40, run_taken_back, dice);
    run_on_housings(30, 9, run_taken_back, dice);
    check_seen(numbers, COUNT(numbers), 10);
}

/* ---- to the last ---- */

/* Contracts some side, the first that can be from any one on; 0: none can. */
static int contract_some(struct run *run, struct dice *dice) {
    uint32_t sides = 4 * run->size[1], start = below(dice, sides);
    for (uint32_t i = 0; i < sides; i++) {
        uint32_t at = (start + i) % sides;
        if (contract_in_run(run, borzhanu_side(at / 4 + 1, at % 4 + 1)).refusal == 0)
            return 1;
    }
    return 0;
}

/* As many elements are left as told; 0: any number. */
static void contract_all(struct list list, uint32_t elements, struct dice *dice) {
    struct run run;
    disguise(&list, dice);
    start_run(&run, &list, no_more, dice);
    while (contract_some(&run, dice))
        continue;
    if (elements != 0 && run.size[1] != elements)
        mismatch("contractions ended elsewhere");
    drop_run(&run);
    drop_list(&list);
}

/* What is left of tubes isn't always the same, and quadrilaterals stay. */
void contracts_to_the_last(struct dice *dice) {
    static const uint32_t numbers[] = {0, 8, 11, 15, 18, 20, 21};
    for (uint32_t size = 1; size < 7; size++) {
        contract_all(fan(2 * size + 1, 0), 1, dice);
        contract_all(fan(2 * size + 1, 1), 1, dice);
        contract_all(bipyramid(2 * size + 1), 4, dice);
        contract_all(sheet(size, size, 0, 0, TRIANGLES, dice), 1, dice);
        contract_all(sheet(size + 2, size, 1, 0, TRIANGLES, dice), 0, dice);
        contract_all(sheet(size + 2, size + 2, 1, 1, TRIANGLES, dice), 0, dice);
        contract_all(sheet(size + 2, size, 1, 0, MIXED, dice), 0, dice);
        contract_all(sheet(size + 2, size + 2, 1, 1, MIXED, dice), 0, dice);
    }
    check_seen(numbers, COUNT(numbers), 10);
}

/* ---- lengths ---- */

/* Each buffer but B2e one number too short, the others longer or not: 2, and never 19. */
static void try_shorter(const struct call *call, struct dice *dice) {
    for (int i = 0; i < 2 * lent_to(call); i++) {
        enum role role = lent[i / 2];
        if (role == B2E || call->given[role].len == 0)
            continue;
        struct call other = *call;
        own_buffers(&other);
        if (i % 2 == 0)
            lengthen_any(&other, dice);
        set_length(&other.given[role], role, call->given[role].len / (role == POINTS ? 2 : 1) - 1);
        compare_with(&other, 2, 0);
        counted((struct answer){2, 0, 0});
        drop_buffers(&other);
    }
}

/* B2e of every length below the new k: 9, which names it. */
static void try_short_b2e(const struct call *call, struct answer answer, struct dice *dice) {
    for (size_t len = 0; len < answer.first; len++) {
        struct call other = *call;
        own_buffers(&other);
        lengthen_any(&other, dice);
        set_length(&other.given[B2E], B2E, len);
        compare_with(&other, 9, answer.first);
        counted((struct answer){9, 0, 0});
        drop_buffers(&other);
    }
}

/* A contraction of each code in buffers that are just long enough, B2e for the new k where there is one: on a border
   that is less than the old list needs. */
static void try_lengths(struct list list, struct dice *dice) {
    uint32_t size[SIZE_LENGTH];
    disguise(&list, dice);
    for (uint32_t code = 0; code < one_past_codes(&list); code++) {
        struct call call = contract_of(&list, no_more, list.n, size, code, dice);
        struct answer answer = compare(&call, NULL);
        if (answer.refusal == 0) {
            set_length(&call.given[B2E], B2E, answer.first);
            compare_answer(&call, answer);
            try_short_b2e(&call, answer, dice);
        }
        try_shorter(&call, dice);
        if (below(dice, 3) == 0)
            try_longer(&call, dice);
        if (below(dice, 40) == 0)
            try_other_lengths(&call, dice);
        drop_buffers(&call);
    }
    drop_list(&list);
}

static const uint32_t listing[2][4] = {{1, 2, 3, 0}, {1, 3, 4, 0}};

/* A quadrilateral past the last row doesn't count and stays: E2e is in three columns. */
static void check_row_past(struct dice *dice) {
    static const uint32_t past[4] = {1, 2, 3, 4};
    struct list list = list_of_rows(4, 2, listing);
    struct slice results[ROLES];
    uint32_t size[SIZE_LENGTH];
    struct call call = contract_of(&list, (struct room){0, 1}, 3, size, borzhanu_side(1, 1), dice);
    memcpy(call.given[ELEMENTS].at + 8, past, sizeof past);
    set_length(&call.given[E2E], E2E, 6);
    if (!is_answer(compare(&call, results), (struct answer){0, 3, 3}) ||
        memcmp(results[ELEMENTS].at + 8, past, sizeof past) != 0)
        fail("a row past the last one was counted");
    set_length(&call.given[E2E], E2E, 5);
    compare_with(&call, 2, 0);
    drop_buffers(&call);
}

/* The listing, or nothing, in buffers that are very long or empty. */
static void try_extreme_lengths(uint32_t n, uint32_t m, struct dice *dice) {
    struct list list = list_of_rows(n, m, listing);
    uint32_t size[SIZE_LENGTH];
    struct call call = contract_of(&list, no_more, 4, size, borzhanu_side(1, 1), dice);
    if (m != 0)
        try_far_lengths(&call);
    try_empty_buffers(call);
    drop_buffers(&call);
}

void lengths_of_contracts(struct dice *dice) {
    static const uint32_t numbers[] = {0, 2, 9, 11, 15};
    check_row_past(dice);
    try_lengths(sheet(2, 2, 0, 0, TRIANGLES, dice), dice);
    try_lengths(sheet(3, 1, 1, 0, MIXED, dice), dice);
    try_lengths(fan(5, 1), dice);
    try_lengths(bipyramid(4), dice);
    try_extreme_lengths(0, 0, dice);
    try_extreme_lengths(3, 0, dice);
    try_extreme_lengths(4, 2, dice);
    check_seen(numbers, COUNT(numbers), 2);
}

/* ---- the largest sizes ---- */

static void contract_large(const struct list *list, uint32_t code, struct answer answer, struct dice *dice) {
    static const double allowed = 5;
    uint32_t size[SIZE_LENGTH];
    struct call call = contract_of(list, no_more, answer.first, size, code, dice);
    compare_answer(&call, answer);
    check_time(&call, 1, allowed);
    drop_buffers(&call);
}

/* As many triangles as there can be on a closed surface, and as many vertices, of which half are spare; and about one
   vertex, which is a, which is b, and which is neither. */
void largest_contracts(struct dice *dice) {
    const uint32_t most = BORZHANU_MAX_ELEMENTS, rim = most - 1;
    struct list list = sheet(1000, 500, 1, 1, TRIANGLES, dice);
    add_spare(&list, list.n / 2, BORZHANU_MAX_VERTICES - list.n);
    contract_large(&list, borzhanu_side(most, 1), (struct answer){0, 0, 3 * most / 2 - 3}, dice);
    contract_large(&list, borzhanu_side(most + 1, 1), (struct answer){11, 0, 0}, dice);
    drop_list(&list);
    list = fan(rim, 1);
    for (uint32_t i = 1; i <= 3; i++)
        contract_large(&list, borzhanu_side(1, i), (struct answer){0, rim - (i == 2), 2 * rim - 3 + (i == 2)}, dice);
    drop_list(&list);
    uint32_t size[SIZE_LENGTH];
    list = list_of_rows(4, 2, listing);
    struct call call = contract_of(&list, no_more, 4, size, borzhanu_side(1, 1), dice);
    check_sizes(&call);
    drop_buffers(&call);
}
