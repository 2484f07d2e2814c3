#include "shapes.h"

#include "borzhanu.h"
#include "handles.h"
#include "ribs.h"
#include "room.h"
#include "runs.h"
#include "shaping.h"

/* The number is taken out as the header does it. */
static int has_number(struct answer answer, int64_t number) {
    return answer.refusal == 0 && borzhanu_signed((uint64_t)answer.first << 28 | answer.second) == number;
}

static void check_number(const struct list *list, int64_t number) {
    struct call call = shape_of(list);
    if (!has_number(compare(&call, NULL), number))
        fail("the number isn't the one that the housing was made with");
}

/* ---- worked out by hand ---- */

enum { ROWS = 14 };

static const struct known {
    const char *name;
    uint32_t n, m, rows[ROWS][4];
    int64_t number;
} known[] = {
    {"nothing", 0, 0, {{0}}, 0},
    {"a vertex", 1, 0, {{0}}, 1},
    {"a triangle", 3, 1, {{1, 2, 3, 0}}, 1},
    {"a quadrilateral and a spare vertex", 5, 1, {{1, 2, 4, 5}}, 2},
    {"the listing", 4, 2, {{1, 2, 3, 0}, {1, 3, 4, 0}}, 1},
    {"a triangle and a quadrilateral", 5, 2, {{1, 2, 3, 0}, {1, 3, 4, 5}}, 1},
    {"two triangles apart", 6, 2, {{1, 2, 3, 0}, {4, 5, 6, 0}}, 2},
    {"a tetrahedron", 4, 4, {{1, 2, 3, 0}, {1, 4, 2, 0}, {2, 4, 3, 0}, {3, 4, 1, 0}}, 2},
    {"a tetrahedron and a spare vertex", 5, 4, {{1, 2, 3, 0}, {1, 4, 2, 0}, {2, 4, 3, 0}, {3, 4, 1, 0}}, 3},
    {"a cube", 8, 6, {{1, 2, 6, 5}, {2, 3, 7, 6}, {3, 4, 8, 7}, {4, 1, 5, 8}, {1, 4, 3, 2}, {5, 6, 7, 8}}, 2},
    {"a band", 6, 4, {{1, 2, 5, 0}, {1, 5, 4, 0}, {2, 3, 6, 5}, {3, 1, 4, 6}}, 0},
    {"two windows", 14, 8,
     {{1, 2, 8, 7}, {2, 5, 9, 8}, {5, 6, 10, 9}, {6, 1, 7, 10},
      {2, 3, 12, 11}, {3, 4, 13, 12}, {4, 5, 14, 13}, {5, 2, 11, 14}}, -1},
    {"a ring of seven vertices, each joined to each", 7, 14,
     {{1, 2, 4, 0}, {1, 4, 3, 0}, {2, 3, 5, 0}, {2, 5, 4, 0}, {3, 4, 6, 0}, {3, 6, 5, 0}, {5, 6, 1, 0},
      {6, 2, 1, 0}, {4, 5, 7, 0}, {4, 7, 6, 0}, {5, 1, 7, 0}, {6, 7, 2, 0}, {7, 1, 3, 0}, {7, 3, 2, 0}}, 0},
    {"the ring without vertex 7", 6, 8,
     {{1, 2, 4, 0}, {1, 4, 3, 0}, {2, 3, 5, 0}, {2, 5, 4, 0}, {3, 4, 6, 0}, {3, 6, 5, 0}, {5, 6, 1, 0}, {6, 2, 1, 0}},
     -1},
};

static void check_known(const struct known *c) {
    struct list list = list_of_rows(c->n, c->m, c->rows);
    struct call call = shape_of(&list);
    if (!has_number(compare(&call, NULL), c->number))
        fail_known(c->name);
    if (call.given[WORK].len == 0)
        return;
    call.given[WORK].len -= 1;
    compare_with(&call, 2, 0);
}

/* Refused as building does; too short a work buffer and rows not in fours come before that. */
static void check_refused(const struct refused_list *c) {
    struct list list = list_of_rows(c->n, c->m, c->rows);
    struct call call = shape_of(&list);
    if (!is_answer(compare(&call, NULL), c->answer))
        fail_known(c->name);
    call.given[WORK].len -= 1;
    compare_with(&call, 2, 0);
    call.given[ELEMENTS].len -= 1;
    compare_with(&call, 1, 0);
    call.given[WORK].len = 0;
    compare_with(&call, 1, 0);
}

void known_shapes(struct dice *dice) {
    (void)dice;
    for (size_t i = 0; i < COUNT(known); i++)
        check_known(&known[i]);
    for (size_t i = 0; i < REFUSED_LISTS; i++)
        check_refused(&refused_lists[i]);
}

/* ---- by the way they are made ---- */

/* As made, and disguised; it is dropped. */
static void check_shaped(struct shaped housing, struct dice *dice) {
    struct mesh t;
    check_number(&housing.list, housing.number);
    disguise(&housing.list, dice);
    check_number(&housing.list, housing.number);
    if (built(&housing.list, &t))
        drop_tables(&t);
    drop_list(&housing.list);
}

/* What one slip makes of it is compared, whatever it is. */
static void try_damaged(struct shaped housing, struct dice *dice) {
    struct mesh t;
    disguise(&housing.list, dice);
    damage_list(&housing.list, dice);
    if (built(&housing.list, &t))
        drop_tables(&t);
    drop_list(&housing.list);
}

static void check_sizes_of(uint32_t across, uint32_t along, enum kinds kinds, struct dice *dice) {
    check_shaped((struct shaped){sheet(across, along, 0, 0, kinds, dice), 1}, dice);
    check_shaped((struct shaped){sheet(across + 2, along, 1, 0, kinds, dice), 0}, dice);
    check_shaped((struct shaped){sheet(across + 2, along + 2, 1, 1, kinds, dice), 0}, dice);
    check_shaped(windowed(across - 1, along - 1, 1, kinds, dice), dice);
    check_shaped(windowed(across, along, 0, kinds, dice), dice);
    check_shaped(box(across, along, 1 + below(dice, 4), kinds, dice), dice);
    check_shaped(pierced(across, along, 1 + below(dice, 3), kinds, dice), dice);
}

void shapes_of_housings(struct dice *dice) {
    enum { SIZES = 6, ANY = 1500 };
    for (uint32_t i = 0; i < 3 * SIZES * SIZES; i++)
        check_sizes_of(1 + i / 3 % SIZES, 1 + i / (3 * SIZES), (enum kinds)(i % 3), dice);
    for (uint32_t count = 1; count <= 40; count++) {
        check_shaped((struct shaped){fan(count, 0), 1}, dice);
        check_shaped((struct shaped){fan(count + 2, 1), 1}, dice);
        check_shaped((struct shaped){bipyramid(count + 2), 2}, dice);
        check_shaped((struct shaped){apart(3 + count % 2, count), count}, dice);
        check_shaped((struct shaped){empty_list(count, 0), count}, dice);
    }
    for (int i = 0; i < ANY; i++) {
        check_shaped(any_shaped(dice, i % 10 == 0 ? 400 : 20), dice);
        try_damaged(any_shaped(dice, 20), dice);
    }
}

/* ---- kept by edits ---- */

/* A run holds the number to what it was when the run began; here that is the one that the housing was made with. */
static void run_of_edits(struct shaped housing, int edits, struct dice *dice) {
    struct room room = {(uint32_t)edits / 4, (uint32_t)edits / 3};
    struct run run;
    disguise(&housing.list, dice);
    start_run(&run, &housing.list, room, dice);
    if (run.number != housing.number)
        mismatch("a run didn't begin with the number that the housing was made with");
    while (edits-- > 0)
        edit_any(&run, dice);
    drop_run(&run);
    drop_list(&housing.list);
}

void shapes_in_runs(struct dice *dice) {
    static const uint32_t numbers[] = {0, 6, 8, 11, 15, 18, 20};
    for (uint32_t i = 0; i < 60; i++) {
        enum kinds kinds = i % 2 == 0 ? TRIANGLES : MIXED;
        run_of_edits(windowed(1 + i % 3, 1 + i / 3 % 3, 1, kinds, dice), 60, dice);
        run_of_edits(pierced(1 + i % 2, 1 + i / 3 % 2, 1, kinds, dice), 60, dice);
        run_of_edits(any_shaped(dice, 30), 60, dice);
    }
    check_seen(numbers, COUNT(numbers), 10);
}

/* ---- lengths ---- */

static void check_lengths(struct shaped housing, struct dice *dice) {
    struct call call = shape_of(&housing.list);
    size_t least = call.given[WORK].len;
    for (size_t len = 0; len <= least + 20; len++) {
        call.given[WORK].len = len;
        if (len < least)
            compare_with(&call, 2, 0);
        else if (!has_number(compare(&call, NULL), housing.number))
            fail("a longer work buffer gives another number");
    }
    for (int i = 0; i < 200; i++) {
        call.given[WORK] = noise_of(WORK, least + below(dice, 40) - (least < 20 ? least : 20));
        call.given[ELEMENTS].len = 4 * housing.list.m - below(dice, 9) % (4 * (uint32_t)housing.list.m + 1);
        call.n = housing.list.n + below(dice, 3) - (housing.list.n != 0);
        compare(&call, NULL);
    }
    drop_list(&housing.list);
}

void lengths_of_shapes(struct dice *dice) {
    check_lengths((struct shaped){empty_list(0, 0), 0}, dice);
    check_lengths((struct shaped){empty_list(3, 0), 3}, dice);
    for (int i = 0; i < 12; i++)
        check_lengths(any_piece(dice, 8), dice);
}

/* ---- the largest sizes ---- */

static void check_large(struct list list, struct answer known) {
    static const double allowed = 5;
    struct call call = shape_of(&list);
    compare_answer(&call, known);
    check_time(&call, 1, allowed);
    drop_list(&list);
}

static void check_large_shaped(struct shaped housing, struct dice *dice) {
    check_large(shuffled(housing.list, dice), gives_signed(housing.number));
}

/* A plate with a quarter of a million windows, on as many vertices as there can be; a solid with shafts; rings; one
   element or none among spare vertices; elements apart, about one vertex, and on one edge. */
void largest_shapes(struct dice *dice) {
    const uint32_t most = BORZHANU_MAX_ELEMENTS;
    static const uint32_t triangle[] = {1, 2, 3, 0};
    check_large_shaped(windowed(499, 499, 1, QUADRILATERALS, dice), dice);
    check_large_shaped(pierced(280, 280, 1, QUADRILATERALS, dice), dice);
    check_large_shaped((struct shaped){sheet(1000, 1000, 1, 1, QUADRILATERALS, dice), 0}, dice);
    struct shaped ring = {sheet(1000, 500, 1, 1, TRIANGLES, dice), 0}, one = {fan(1, 0), 1};
    put_spare(&ring, ring.list.n / 2, BORZHANU_MAX_VERTICES - ring.list.n);
    check_large_shaped(ring, dice);
    put_spare(&one, 2, BORZHANU_MAX_VERTICES - one.list.n);
    check_large_shaped(one, dice);
    check_large_shaped((struct shaped){empty_list(BORZHANU_MAX_VERTICES, 0), BORZHANU_MAX_VERTICES}, dice);
    check_large_shaped((struct shaped){apart(3, most / 3), most / 3}, dice);
    check_large(fan(most - 1, 1), gives_signed(1));
    check_large(pile(3, most, triangle, 0), (struct answer){6, 1, 1});
}
