#include "spare.h"

#include "asking.h"
#include "borzhanu.h"
#include "room.h"

#include <stdio.h>
#include <stdlib.h>

enum { MOST = BORZHANU_MAX_VERTICES, MIDDLE = MOST / 2, THIRD = MOST / 3 };

/* A list of up to four elements on all the vertices, and what building answers. */
struct few {
    const char *name;
    uint32_t m, rows[4][4];
    uint32_t refusal, first, second;
};

static const struct few accepted[] = {
    {"no element", 0, {{0}}, 0, 0, 0},
    {"a triangle of the first vertices", 1, {{1, 2, 3, 0}}, 0, 3, 3},
    {"a triangle of the last vertices", 1, {{MOST - 1, MOST, MOST - 2, 0}}, 0, 3, 3},
    {"a triangle of vertices far apart", 1, {{MIDDLE, MOST, 1, 0}}, 0, 3, 3},
    {"a quadrilateral of vertices far apart", 1, {{1, THIRD, MIDDLE, MOST}}, 0, 4, 4},
    {"four triangles about a solid", 4,
     {{1, MIDDLE, MOST, 0}, {1, THIRD, MIDDLE, 0}, {MIDDLE, THIRD, MOST, 0}, {MOST, THIRD, 1, 0}}, 0, 0, 6},
};

static const struct few unfit[] = {
    {"a corner 0", 1, {{MOST, 1, 0, 0}}, 3, 1, 3},
    {"a corner above n", 1, {{1, 2, 3, MOST + 1}}, 3, 1, 4},
    {"a corner twice", 1, {{MOST, 1, MOST, 0}}, 4, 1, 3},
    {"three elements on an edge", 3, {{MOST, MIDDLE, 1, 0}, {MIDDLE, MOST, 2, 0}, {MOST, MIDDLE, 3, 0}}, 6, 1, 1},
    {"sides alike", 2, {{1, MIDDLE, MOST, 0}, {2, MIDDLE, MOST, 0}}, 7, 1, 2},
    {"two fans at the last vertex", 2, {{MOST, 1, 2, 0}, {MOST, MIDDLE, 3, 0}}, 8, MOST, 0},
    {"two fans between spare vertices", 2, {{MIDDLE, 1, 2, 0}, {MIDDLE, MOST, 3, 0}}, 8, MIDDLE, 0},
    {"two triangles back to back", 2, {{1, MIDDLE, MOST, 0}, {1, MOST, MIDDLE, 0}}, 18, 1, 2},
    {"a diagonal along a side", 3, {{3, 2, MOST, 0}, {1, 2, 3, 0}, {1, 3, MIDDLE, 2}}, 18, 1, 3},
};

static void fail_few(const struct few *few, const char *what) {
    printf("MISMATCH: %u vertices, %s: %s isn't as worked out\n", (unsigned)MOST, few->name, what);
    stop();
}

static struct list list_of(const struct few *few) {
    struct list list = empty_list(MOST, few->m);
    for (uint32_t f = 0; f < few->m; f++)
        add_row(&list, few->rows[f][0], few->rows[f][1], few->rows[f][2], few->rows[f][3]);
    return list;
}

static void check_answer(const struct few *few, struct call call, uint32_t refusal, uint32_t first, uint32_t second) {
    struct answer answer = compare(&call, NULL);
    if (answer.refusal != refusal || answer.first != first || answer.second != second)
        fail_few(few, call.exported->name);
}

/* ---- refusals ---- */

/* V2e and the work buffer one entry too short, V2e one too long, and one vertex too many. */
static void refuse_lengths(const struct few *few, const struct call *call) {
    static const enum role shortened[] = {V2E, WORK};
    struct call other;
    for (size_t i = 0; i < COUNT(shortened); i++) {
        other = *call;
        other.given[shortened[i]].len -= 1;
        check_answer(few, other, 2, 0, 0);
    }
    other = *call;
    other.given[V2E] = noise_of(V2E, MOST + 1);
    check_answer(few, other, 2, 0, 0);
    other.n += 1;
    other.given[WORK].len += 1;
    check_answer(few, other, 1, 0, 0);
}

static void refuse_short_b2e(const struct few *few, const struct list *list) {
    for (uint32_t len = 0; len < few->first; len++)
        check_answer(few, build_of(list, len), 9, few->first, 0);
}

static void try_unfit(const struct few *few) {
    struct list list = list_of(few);
    check_answer(few, build_of(&list, MOST), few->refusal, few->first, few->second);
    check_answer(few, build_of(&list, 0), few->refusal, few->first, few->second);
    try_siblings(&list, NULL);
    try_shape(&list, (struct answer){few->refusal, few->first, few->second});
    drop_list(&list);
}

/* ---- what is accepted ---- */

static int is_corner(const struct few *few, uint32_t v) {
    for (uint32_t f = 0; f < few->m; f++)
        for (int i = 0; i < 4; i++)
            if (few->rows[f][i] == v)
                return 1;
    return 0;
}

/* Does something for each vertex that an element uses, once: at the first row that has it. */
static void for_corners(const struct few *few, const struct mesh *t, void (*act)(const struct mesh *t, uint32_t v)) {
    struct few before = *few;
    for (before.m = 0; before.m < few->m; before.m++)
        for (int i = 0; i < 4; i++)
            if (few->rows[before.m][i] != 0 && !is_corner(&before, few->rows[before.m][i]))
                act(t, few->rows[before.m][i]);
}

/* the first vertex from v on that no element uses */
static uint32_t spare_from(const struct few *few, uint32_t v) {
    while (is_corner(few, v))
        v++;
    return v;
}

/* The entry of a vertex is 0 exactly where no element uses it. */
static void check_entries(const struct few *few, const struct mesh *t) {
    for (uint32_t v = 1; v <= MOST; v++)
        if ((t->v2e.at[v - 1] != 0) != is_corner(few, v))
            fail_few(few, "V2e");
}

static void ask_vertices(const struct few *few, const struct mesh *t) {
    const uint32_t others[] = {0, spare_from(few, 1), spare_from(few, MIDDLE), MOST, MOST + 1};
    for_corners(few, t, ask_vertex);
    for (size_t i = 0; i < COUNT(others); i++)
        ask_vertex(t, others[i]);
}

static void ask_half_edges(const struct mesh *t) {
    for (uint32_t b = 0; b <= t->b2e.len + 1; b++) {
        ask_code(t, borzhanu_border(b));
        ask_list(&border_list, t, b);
    }
    for (uint32_t i = 1; i <= 4; i++)
        ask_code(t, borzhanu_side(1, i));
}

/* There is one rim, or there is none. */
static void ask_rim(const struct few *few, const struct mesh *t) {
    struct call call = holes_of(t);
    check_answer(few, call, 0, few->first != 0, 0);
    refuse_lengths(few, &call);
}

/* An entry of 0 for a vertex with elements, and other entries for vertices without. */
static void try_changed(const struct few *few, const struct mesh *t) {
    for_corners(few, t, try_zeroed);
    recover_claimed(t, spare_from(few, 1), borzhanu_border(1));
    recover_claimed(t, spare_from(few, MIDDLE), borzhanu_side(1, 1));
    recover_claimed(t, spare_from(few, MOST - 3), UINT32_MAX);
}

static void try_accepted(const struct few *few) {
    struct list list = list_of(few);
    struct mesh t;
    check_answer(few, build_of(&list, MOST), 0, few->first, few->second);
    refuse_short_b2e(few, &list);
    struct call call = build_of(&list, MOST);
    refuse_lengths(few, &call);
    if (!built(&list, &t))
        fail_few(few, "building");
    check_entries(few, &t);
    build_with_other_room(&list, t.b2e.len);
    call = siblings_of(&list);
    refuse_lengths(few, &call);
    check_answer(few, recovery_of(&t), 0, 0, 0);
    call = recovery_of(&t);
    refuse_lengths(few, &call);
    ask_vertices(few, &t);
    ask_half_edges(&t);
    ask_rim(few, &t);
    try_changed(few, &t);
    drop_tables(&t);
    drop_list(&list);
}

void many_spare_vertices(struct dice *dice) {
    (void)dice;
    for (size_t i = 0; i < COUNT(accepted); i++)
        try_accepted(&accepted[i]);
    for (size_t i = 0; i < COUNT(unfit); i++)
        try_unfit(&unfit[i]);
}

/* ---- time ---- */

/* The calls below take less than a tenth of a second. A step for each pair of vertices, or of a vertex and an element,
   would be 10^12 steps; half as many, each an addition of a compiled loop over several entries at once, took 21. */
static const double allowed = 5;

static void check_list_time(struct list list) {
    struct call call = build_of(&list, list.n);
    struct mesh t;
    check_time(&call, 1, allowed);
    if (!built(&list, &t))
        exit(2);
    call = recovery_of(&t);
    check_time(&call, 1, allowed);
    drop_tables(&t);
    drop_list(&list);
}

/* Nearly as many triangles as there can be, on half of the vertices: the first, the last, and none between. */
static struct list half_used(struct dice *dice) {
    struct list list = sheet(707, 707, 1, 1, TRIANGLES, dice);
    add_spare(&list, list.n / 2, MOST - list.n);
    return list;
}

void time_of_spare_vertices(struct dice *dice) {
    struct list one = empty_list(MOST, 1);
    add_row(&one, 1, MIDDLE, MOST, 0);
    check_list_time(empty_list(MOST, 0));
    check_list_time(one);
    check_list_time(half_used(dice));
}
