#include "swaps.h"

#include "borzhanu.h"
#include "edits.h"
#include "room.h"
#include "shaping.h"

#include <stdlib.h>
#include <string.h>

static struct call swap_of(const struct list *list, size_t b2e_len, uint32_t *size, uint32_t code) {
    return edit_of(&swap_call, list, b2e_len, size, code);
}

/* ---- worked out by hand ---- */

enum { ROWS = 6 };

/* A list, the code of a swap, how many entries B2e has, and what is answered; where that is no refusal, the new list. */
struct known {
    const char *name;
    uint32_t n, m, rows[ROWS][4], code, b2e_len;
    struct answer answer;
    uint32_t swapped[ROWS][4];
};

#define LISTING .n = 4, .m = 2, .rows = {{1, 2, 3, 0}, {1, 3, 4, 0}}
#define LISTING_SWAPPED .answer = {0, 4, 5}, .swapped = {{2, 3, 4, 0}, {4, 1, 2, 0}}
#define TETRAHEDRON .n = 4, .m = 4, .rows = {{1, 2, 3, 0}, {1, 4, 2, 0}, {2, 4, 3, 0}, {3, 4, 1, 0}}
#define MIXED_LIST .n = 5, .m = 2, .rows = {{1, 2, 3, 0}, {1, 3, 4, 5}}
#define NOT_THERE .b2e_len = 12, .answer = {11, 0, 0}
#define UNFIT .b2e_len = 0, .answer = {15, 0, 0}

static const struct known known[] = {
    {"the listing, 3 to 1", LISTING, .code = 11, .b2e_len = 4, LISTING_SWAPPED},
    {"the listing, 1 to 3", LISTING, .code = 17, .b2e_len = 4, LISTING_SWAPPED},
    {"each corner in another place", .n = 5, .m = 2, .rows = {{5, 2, 4, 0}, {2, 5, 1, 0}}, .code = 9, .b2e_len = 9,
     .answer = {0, 4, 5}, .swapped = {{4, 5, 1, 0}, {1, 2, 4, 0}}},
    {"a quadrilateral near by", .n = 6, .m = 3, .rows = {{1, 2, 3, 0}, {1, 3, 4, 0}, {3, 2, 5, 6}}, .code = 17,
     .b2e_len = 6, .answer = {0, 6, 8}, .swapped = {{2, 3, 4, 0}, {4, 1, 2, 0}, {3, 2, 5, 6}}},
    {"an octahedron's waist", .n = 6, .m = 6,
     .rows = {{1, 2, 3, 0}, {1, 3, 4, 0}, {1, 4, 5, 0}, {1, 5, 2, 0}, {6, 3, 2, 0}, {6, 4, 3, 0}}, .code = 10,
     .b2e_len = 6, .answer = {0, 4, 11},
     .swapped = {{1, 2, 6, 0}, {1, 3, 4, 0}, {1, 4, 5, 0}, {1, 5, 2, 0}, {6, 3, 1, 0}, {6, 4, 3, 0}}},
    /* 11 */
    {"code 0", LISTING, .code = 0, NOT_THERE},
    {"side 1 of element 0", LISTING, .code = 1, NOT_THERE},
    {"side 7 of element 0", LISTING, .code = 7, NOT_THERE},
    {"a triangle's fourth side", LISTING, .code = 12, NOT_THERE},
    {"a fifth side", LISTING, .code = 13, NOT_THERE},
    {"a quadrilateral's fifth side", MIXED_LIST, .code = 21, NOT_THERE},
    {"a triangle's fourth side beside a quadrilateral", MIXED_LIST, .code = 12, NOT_THERE},
    {"an element past the last", LISTING, .code = 25, NOT_THERE},
    {"a border past the last", LISTING, .code = 40, NOT_THERE},
    {"a border where there is none", TETRAHEDRON, .code = 8, NOT_THERE},
    {"the greatest border code", LISTING, .code = 4294967288, NOT_THERE},
    {"the greatest code", LISTING, .code = 4294967295, NOT_THERE},
    {"code 0 of nothing", .n = 0, .m = 0, .code = 0, NOT_THERE},
    {"a side of nothing", .n = 0, .m = 0, .code = 9, NOT_THERE},
    {"a border of vertices alone", .n = 3, .m = 0, .code = 8, NOT_THERE},
    {"11 before 9", LISTING, .code = 12, .b2e_len = 0, .answer = {11, 0, 0}},
    /* 15 */
    {"the first border half-edge", LISTING, .code = 8, UNFIT},
    {"a border half-edge with a side's element", LISTING, .code = 16, UNFIT},
    {"the last border half-edge", LISTING, .code = 32, UNFIT},
    {"a border side", LISTING, .code = 9, UNFIT},
    {"another border side", LISTING, .code = 19, UNFIT},
    {"a lone triangle", .n = 3, .m = 1, .rows = {{1, 2, 3, 0}}, .code = 10, UNFIT},
    {"a quadrilateral beyond", MIXED_LIST, .code = 11, UNFIT},
    {"a quadrilateral on this side", MIXED_LIST, .code = 17, UNFIT},
    {"a quadrilateral's border side", MIXED_LIST, .code = 20, UNFIT},
    {"quadrilaterals on both sides", .n = 6, .m = 2, .rows = {{1, 2, 3, 4}, {4, 5, 6, 1}}, .code = 12, UNFIT},
    /* the new list */
    {"c and d joined by two plates", TETRAHEDRON, .code = 9, .b2e_len = 0, .answer = {6, 1, 3}},
    {"c and d joined by one plate", .n = 4, .m = 3, .rows = {{1, 2, 3, 0}, {1, 4, 2, 0}, {2, 4, 3, 0}}, .code = 9,
     .b2e_len = 0, .answer = {6, 1, 3}},
    {"c and d joined in a row before", .n = 4, .m = 3, .rows = {{2, 4, 3, 0}, {1, 2, 3, 0}, {1, 4, 2, 0}}, .code = 17,
     .b2e_len = 9, .answer = {6, 1, 2}},
    {"c and d a quadrilateral's diagonal", .n = 5, .m = 3, .rows = {{1, 2, 3, 0}, {2, 1, 4, 0}, {3, 2, 4, 5}},
     .code = 9, .b2e_len = 0, .answer = {18, 1, 3}},
    {"c and d the diagonal of a row before", .n = 5, .m = 3, .rows = {{3, 2, 4, 5}, {1, 2, 3, 0}, {2, 1, 4, 0}},
     .code = 25, .b2e_len = 9, .answer = {18, 1, 2}},
    {"B2e without an entry", LISTING, .code = 11, .b2e_len = 0, .answer = {9, 4, 0}},
    {"B2e one too short", LISTING, .code = 17, .b2e_len = 3, .answer = {9, 4, 0}},
};

static void check_known(const struct known *c) {
    struct list list = list_of_rows(c->n, c->m, c->rows), swapped = list_of_rows(c->n, c->m, c->swapped);
    struct slice results[ROLES];
    uint32_t size[SIZE_LENGTH];
    struct call call = swap_of(&list, c->b2e_len, size, c->code);
    if (!is_answer(compare(&call, results), c->answer))
        fail_known(c->name);
    if (c->answer.refusal != 0)
        return;
    struct mesh left = mesh_left(results, c->answer.first);
    check_left(&left, &swapped);
    drop_tables(&left);
}

/* Whatever the code and B2e, what building says of the list comes first. */
static void check_refused(const struct refused_list *c) {
    struct list list = list_of_rows(c->n, c->m, c->rows);
    uint32_t size[SIZE_LENGTH];
    for (size_t i = 0; i < 2 * SOME_CODES; i++) {
        struct call call = swap_of(&list, i % 2 == 0 ? 0 : 12, size, some_codes[i / 2]);
        if (!is_answer(compare(&call, NULL), c->answer))
            fail_known(c->name);
    }
}

void known_swaps(struct dice *dice) {
    (void)dice;
    for (size_t i = 0; i < COUNT(known); i++)
        check_known(&known[i]);
    for (size_t i = 0; i < REFUSED_LISTS; i++)
        check_refused(&refused_lists[i]);
}

/* ---- every code ---- */

static void try_code(const struct list *list, uint32_t code, struct dice *dice) {
    uint32_t size[SIZE_LENGTH];
    struct call call = swap_of(list, below(dice, 4) == 0 ? below(dice, list->n + 1) : list->n, size, code);
    counted(compare(&call, NULL));
}

void swaps_of_every_code(struct dice *dice) {
    static const uint32_t numbers[] = {0, 3, 4, 6, 7, 8, 9, 11, 15, 18};
    try_every_code(try_code, dice);
    check_seen(numbers, COUNT(numbers), 50);
}

/* ---- runs ---- */

/* The elements and corners that a swap is about, by what the queries say of the old tables. */
struct diagonal {
    uint32_t f, g, a, b, c, d;
};

static uint32_t third_corner(const borzhanu_mesh *mesh, uint32_t side) {
    return borzhanu_first(borzhanu_mesh_origin(mesh, borzhanu_first(borzhanu_mesh_previous(mesh, side))));
}

static struct diagonal diagonal_of(const struct mesh *t, uint32_t side) {
    const borzhanu_mesh mesh = {t->n, t->columns, t->elements.at, t->elements.len, t->v2e.at, t->v2e.len,
                                t->e2e.at, t->e2e.len, t->b2e.at, t->b2e.len};
    uint32_t partner = borzhanu_first(borzhanu_mesh_opposite(&mesh, side));
    return (struct diagonal){borzhanu_element_of(side),
                             borzhanu_element_of(partner),
                             borzhanu_first(borzhanu_mesh_origin(&mesh, side)),
                             borzhanu_first(borzhanu_mesh_origin(&mesh, partner)),
                             third_corner(&mesh, side),
                             third_corner(&mesh, partner)};
}

static void set_row(struct list *list, uint32_t f, uint32_t a, uint32_t b, uint32_t c) {
    const uint32_t row[4] = {a, b, c, 0};
    memcpy(list->rows + 4 * (f - 1), row, sizeof row);
}

/* Lends list and tables in longer buffers or not; the tables are those of the list, or noise. B2e is one too short now
   and then. */
static void lend(struct call *call, const struct mesh *t, struct dice *dice) {
    const struct slice held[] = {t->elements, t->v2e, t->e2e, t->b2e};
    int with_tables = below(dice, 2) == 0;
    own_buffers(call);
    for (size_t i = 0; i < COUNT(held); i++) {
        struct slice *given = &call->given[lent[i]];
        change_length(given, lent[i], (long)held[i].len - (long)given->len);
        if (with_tables && held[i].len != 0)
            memcpy(given->at, held[i].at, held[i].len * sizeof(uint32_t));
    }
    if (below(dice, 12) == 0)
        change_length(&call->given[B2E], B2E, -1);
    else
        lengthen_any(call, dice);
}

/* Swaps, and where there is an answer puts what is left in the place of the old list and tables. */
static struct answer swap_in(struct mesh *t, uint32_t code, struct dice *dice) {
    struct list list = list_of(t);
    struct slice results[ROLES];
    uint32_t size[SIZE_LENGTH];
    struct call call = swap_of(&list, 0, size, code);
    int64_t number = counted_shape(t->n, t->elements);
    lend(&call, t, dice);
    struct answer answer = compare(&call, results);
    if (answer.refusal == 0) {
        struct mesh left = mesh_left(results, answer.first);
        drop_tables(t);
        *t = left;
    }
    if (counted_shape(t->n, t->elements) != number)
        mismatch("a swap changed the number of the shape");
    drop_buffers(&call);
    return counted(answer);
}

/* The new diagonal swapped as well: the old one is back, and the triangles are in each other's rows. Only a short B2e
   can be in the way. */
static void swap_back(struct mesh *t, const struct mesh *old, struct diagonal s, struct dice *dice) {
    struct mesh expected = copied_tables(old);
    struct list list = list_of(&expected);
    set_row(&list, s.f, s.a, s.d, s.b);
    set_row(&list, s.g, s.b, s.c, s.a);
    struct answer answer = swap_in(t, borzhanu_side(below(dice, 2) == 0 ? s.f : s.g, 3), dice);
    if (answer.refusal == 0)
        check_left(t, &list);
    else if (answer.refusal != 9)
        mismatch("a swap can't be taken back");
    drop_tables(&expected);
}

static void swap_any(struct mesh *t, struct dice *dice) {
    struct mesh old = copied_tables(t);
    uint32_t code = below(dice, 5) == 0 ? below(dice, borzhanu_border(t->n + 3)) : any_inner_side(t, dice);
    if (swap_in(t, code, dice).refusal == 0) {
        struct diagonal s = diagonal_of(&old, code);
        struct mesh edited = copied_tables(&old);
        struct list list = list_of(&edited);
        set_row(&list, s.f, s.c, s.a, s.d);
        set_row(&list, s.g, s.d, s.b, s.c);
        check_left(t, &list);
        drop_tables(&edited);
        if (below(dice, 3) == 0)
            swap_back(t, &old, s, dice);
    }
    drop_tables(&old);
}

static void run_of_swaps(struct list list, int swaps, struct dice *dice) {
    struct mesh t;
    disguise(&list, dice);
    if (!built(&list, &t))
        exit(2);
    t.columns = columns_of(t.elements);
    while (swaps-- > 0)
        swap_any(&t, dice);
    drop_tables(&t);
    drop_list(&list);
}

void runs_of_swaps(struct dice *dice) {
    static const uint32_t numbers[] = {0, 6, 9, 11, 15, 18};
    for (int i = 0; i < 16; i++)
        run_on_housings(2 + (uint32_t)i % 4, 120, run_of_swaps, dice);
    run_on_housings(12, 150, run_of_swaps, dice);
    run_on_housings(50, 4, run_of_swaps, dice);
    check_seen(numbers, COUNT(numbers), 10);
}

/* ---- lengths ---- */

/* A list with a quadrilateral past its last row, which doesn't count: E2e is in three columns. */
static void check_row_past(void) {
    static const uint32_t rows[3][4] = {{1, 2, 3, 0}, {1, 3, 4, 0}, {1, 2, 3, 4}};
    struct list list = list_of_rows(4, 2, rows);
    struct slice results[ROLES];
    uint32_t size[SIZE_LENGTH];
    struct call call = swap_of(&list, 4, size, borzhanu_side(1, 3));
    call.given[ELEMENTS].len = 12;
    if (compare(&call, results).refusal != 0 || memcmp(results[ELEMENTS].at + 8, rows[2], sizeof rows[2]) != 0)
        fail("a row past the last one was counted");
    call.given[E2E].len -= 1;
    compare_with(&call, 2, 0);
    size[1] = 3;
    call.given[E2E].len = 12;
    call.given[WORK].len += 16;
    compare_answer(&call, (struct answer){7, 1, 1});
    call.given[E2E].len -= 1;
    compare_with(&call, 2, 0);
}

/* Two triangles whose other diagonal a quadrilateral has. */
static struct list diagonal_taken(void) {
    struct list list = empty_list(5, 3);
    add_row(&list, 1, 2, 3, 0);
    add_row(&list, 2, 1, 4, 0);
    add_row(&list, 3, 2, 4, 5);
    return list;
}

/* Each buffer one entry too short, by itself and with the others longer: 2, but for B2e. */
static void try_shorter(const struct call *call, struct dice *dice) {
    for (int i = 0; i < 2 * lent_to(call); i++) {
        enum role role = lent[i / 2];
        struct call other = *call;
        own_buffers(&other);
        if (i % 2 == 0)
            lengthen_any(&other, dice);
        change_length(&other.given[role], role, (long)call->given[role].len - (long)other.given[role].len - 1);
        uint32_t refusal = counted(compare(&other, NULL)).refusal;
        if (role != B2E && call->given[role].len != 0 && refusal != 2)
            fail("a buffer is too short, but the refusal isn't 2");
        drop_buffers(&other);
    }
}

static void try_lengths(struct list list, struct dice *dice) {
    uint32_t size[SIZE_LENGTH];
    struct mesh t;
    disguise(&list, dice);
    if (!built(&list, &t))
        exit(2);
    struct call call = swap_of(&list, t.b2e.len, size, 0);
    for (; call.number < one_past_codes(&list); call.number++) {
        try_longer(&call, dice);
        try_shorter(&call, dice);
    }
    t.columns = columns_of(t.elements);
    call.number = any_inner_side(&t, dice);
    try_other_lengths(&call, dice);
    call.number = below(dice, one_past_codes(&list));
    try_other_lengths(&call, dice);
    drop_tables(&t);
    drop_list(&list);
}

static const uint32_t listing[2][4] = {{1, 2, 3, 0}, {1, 3, 4, 0}};

/* The listing, or nothing, in buffers that are very long or empty. */
static void try_extreme_lengths(uint32_t n, uint32_t m) {
    struct list list = list_of_rows(n, m, listing);
    uint32_t size[SIZE_LENGTH];
    struct call call = swap_of(&list, 4, size, borzhanu_side(1, 3));
    if (m != 0)
        try_far_lengths(&call);
    try_empty_buffers(call);
}

void lengths_of_swaps(struct dice *dice) {
    static const uint32_t numbers[] = {0, 2, 3, 6, 9, 11, 15, 18};
    check_row_past();
    try_lengths(sheet(2, 2, 0, 0, TRIANGLES, dice), dice);
    try_lengths(sheet(3, 1, 1, 0, MIXED, dice), dice);
    try_lengths(bipyramid(3), dice);
    try_lengths(diagonal_taken(), dice);
    try_extreme_lengths(0, 0);
    try_extreme_lengths(3, 0);
    try_extreme_lengths(4, 2);
    check_seen(numbers, COUNT(numbers), 2);
}

/* ---- the largest sizes ---- */

/* As many triangles as there can be, on a closed surface, and as many vertices, of which half are spare. */
void largest_swaps(struct dice *dice) {
    static const double allowed = 5;
    struct list list = sheet(1000, 500, 1, 1, TRIANGLES, dice);
    uint32_t size[SIZE_LENGTH];
    add_spare(&list, list.n / 2, BORZHANU_MAX_VERTICES - list.n);
    struct call call = swap_of(&list, 0, size, borzhanu_side(BORZHANU_MAX_ELEMENTS, 1));
    compare_answer(&call, (struct answer){0, 0, 3 * BORZHANU_MAX_ELEMENTS / 2});
    check_time(&call, 1, allowed);
    call.number = borzhanu_side(BORZHANU_MAX_ELEMENTS + 1, 1);
    compare_with(&call, 11, 0);
    drop_list(&list);
    list = list_of_rows(4, 2, listing);
    call = swap_of(&list, 4, size, borzhanu_side(1, 3));
    check_sizes(&call);
}
