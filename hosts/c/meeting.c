#include "meeting.h"

#include "asking.h"
#include "borzhanu.h"
#include "cases.h"
#include "pillows.h"
#include "room.h"

#include <stdio.h>
#include <stdlib.h>
#include <string.h>

/* of elements and of vertices */
enum { MOST = BORZHANU_MAX_ELEMENTS };

/* ---- known answers ---- */

static const struct {
    const char *pattern;
    int closed;
    struct answer answer;
} known_slices[] = {
    {"W", 0, {0, 4, 4}},
    {"TWAP", 0, {0, 7, 12}},
    {"PPPP", 0, {0, 10, 13}},
    {"AAA", 1, {0, 0, 9}},
    {"WAA", 1, {0, 0, 8}},
    {"LA", 1, {0, 0, 6}},
    {"LAAA", 1, {0, 0, 12}},
    {"PPP", 1, {0, 6, 9}},
    {"TPT", 1, {0, 4, 7}},
    {"TTT", 1, {0, 3, 6}},
    /* back to back */
    {"TT", 1, {18, 1, 2}},
    {"WW", 1, {18, 1, 2}},
    /* three corners */
    {"WW", 0, {18, 1, 2}},
    {"PP", 1, {18, 1, 2}},
    {"TP", 1, {18, 1, 2}},
    {"WA", 1, {18, 1, 2}},
    {"WL", 0, {18, 1, 2}},
    {"PPPWW", 1, {18, 4, 5}},
    {"TTAAWW", 0, {18, 7, 8}},
    {"WTW", 1, {18, 1, 3}},
    /* a diagonal */
    {"WAW", 0, {18, 1, 4}},
    {"WAWA", 1, {18, 1, 4}},
    {"AWAAW", 0, {18, 3, 8}},
    {"PPPWAW", 1, {18, 4, 7}},
    /* a diagonal of one and a side of the other */
    {"LW", 0, {18, 1, 3}},
    {"LAW", 0, {18, 1, 5}},
    {"WAAL", 0, {18, 1, 6}},
    {"PLAAW", 0, {18, 2, 8}},
    /* what comes before 18 */
    {"LAL", 0, {6, 1, 3}},
    {"AA", 1, {6, 1, 2}},
    {"WPW", 0, {8, 2, 0}},
    {"LPW", 0, {8, 2, 0}},
    {"WTWP", 1, {8, 2, 0}},
};

static void check_small(struct list list, struct answer known, struct dice *dice) {
    struct call call = build_of(&list, list.n);
    compare_answer(&call, known);
    try_small_list(&list, dice);
    drop_list(&list);
}

static void check_shapes(struct dice *dice) {
    for (size_t i = 0; i < COUNT(known_slices); i++)
        check_small(slices(known_slices[i].pattern, known_slices[i].closed), known_slices[i].answer, dice);
    check_small(pillow(3, dice), (struct answer){18, 1, 2}, dice);
    check_small(cushion(1, 1, QUADRILATERALS, dice), (struct answer){18, 1, 2}, dice);
    check_small(cushion(2, 2, QUADRILATERALS, dice), (struct answer){18, 1, 5}, dice);
    check_small(cushion(3, 2, QUADRILATERALS, dice), (struct answer){18, 1, 7}, dice);
    check_small(sheet(2, 1, 1, 0, QUADRILATERALS, dice), (struct answer){18, 1, 2}, dice);
    check_small(sheet(2, 1, 1, 0, TRIANGLES, dice), (struct answer){0, 0, 6}, dice);
    check_small(sheet(2, 2, 1, 0, QUADRILATERALS, dice), (struct answer){6, 1, 3}, dice);
    check_small(sheet(3, 1, 1, 0, QUADRILATERALS, dice), (struct answer){0, 6, 9}, dice);
    check_small(sheet(3, 3, 1, 1, QUADRILATERALS, dice), (struct answer){0, 0, 18}, dice);
    check_small(sheet(3, 3, 1, 1, TRIANGLES, dice), (struct answer){0, 0, 27}, dice);
}

/* ---- any lists ---- */

/* A stored case that is accepted, or that 18 refuses. */
static struct list any_case(struct dice *dice) {
    const struct build_case *c;
    do
        c = &build_cases[below(dice, (uint32_t)build_case_count)];
    while (c->refusal != 0 && c->refusal != 18);
    struct list list = empty_list(c->n, c->m);
    for (uint32_t f = 0; f < c->m; f++)
        add_row(&list, c->rows[f][0], c->rows[f][1], c->rows[f][2], c->rows[f][3]);
    return list;
}

static struct list any_part(struct dice *dice) {
    switch (below(dice, 8)) {
    case 0:
        return fan(2 + below(dice, 4), 1);
    case 1:
        return bipyramid(3 + below(dice, 3));
    case 2:
        return sheet(2 + below(dice, 2), 1 + below(dice, 2), 1, 0, (enum kinds)below(dice, 3), dice);
    case 3:
    case 4:
        return any_case(dice);
    default:
        return any_pillow(dice, 6);
    }
}

/* One to three of these side by side, some of their triangles joined. */
static struct list any_parts(struct dice *dice) {
    struct list list = any_part(dice);
    for (uint32_t others = below(dice, 3); others > 0; others--) {
        struct list other = any_part(dice);
        add_list(&list, &other);
        drop_list(&other);
    }
    for (uint32_t times = below(dice, 4); times > 0; times--)
        join_triangles(&list, dice);
    if (below(dice, 4) == 0)
        add_spare(&list, below(dice, list.n + 1), 1 + below(dice, 3));
    disguise(&list, dice);
    if (below(dice, 5) == 0)
        damage_list(&list, dice);
    return list;
}

/* How many lists were accepted; in how many elements clashed, and not the first of the list. */
struct tally {
    uint32_t accepted, clashing, later;
};

static void count(struct tally *tally, struct answer answer) {
    tally->accepted += answer.refusal == 0;
    tally->clashing += answer.refusal == 18;
    tally->later += answer.refusal == 18 && answer.first > 1;
}

static void try_parts(struct dice *dice, struct tally *tally) {
    struct list list = any_parts(dice);
    struct call call = build_of(&list, list.n);
    struct mesh t;
    count(tally, compare(&call, NULL));
    if (tried_building(&list, &t))
        drop_tables(&t);
    drop_list(&list);
}

/* At least a fifth of the lists is accepted and a fifth clashes: others wouldn't tell much about either. */
static void many_parts(struct dice *dice) {
    enum { LISTS = 10000, ENOUGH = LISTS / 5 };
    struct tally tally = {0, 0, 0};
    for (int i = 0; i < LISTS; i++)
        try_parts(dice, &tally);
    if (tally.accepted >= ENOUGH && tally.clashing >= ENOUGH && tally.later >= ENOUGH / 2)
        return;
    printf("MISMATCH: of %d lists too few are accepted, %u, or clash, %u, or clash after the first element, %u\n",
           (int)LISTS, tally.accepted, tally.clashing, tally.later);
    stop();
}

static void try_parts_whole(struct dice *dice) {
    struct list list = any_parts(dice);
    try_small_list(&list, dice);
    drop_list(&list);
}

static void try_pillow(struct dice *dice, uint32_t size) {
    struct list list = any_pillow(dice, size);
    disguise(&list, dice);
    try_list(&list, dice, 4);
    damage_list(&list, dice);
    try_list(&list, dice, 4);
    drop_list(&list);
}

void elements_that_clash(struct dice *dice) {
    check_shapes(dice);
    many_parts(dice);
    for (int i = 0; i < 150; i++)
        try_parts_whole(dice);
    for (int i = 0; i < 40; i++)
        try_pillow(dice, 300);
    try_pillow(dice, 10000);
}

/* ---- time ---- */

/* The calls below take about a tenth of a second. A step for each two elements about a vertex, or on a diagonal, would
   be 4 * 10^10 steps and more. */
static const double allowed = 5;

static void check_build_time(const struct list *list) {
    struct call call = build_of(list, list->n);
    check_time(&call, 1, allowed);
}

/* Of the tables that the list has, or would have but for 18. */
static void check_recovery_time(const struct list *list) {
    struct mesh t;
    if (!tables_but_for_18(list->n, (struct slice){list->rows, 4 * list->m}, &t))
        exit(2);
    struct call call = recovery_of(&t);
    check_time(&call, 1, allowed);
    drop_tables(&t);
}

static void check_large(struct list list, struct answer known) {
    struct call call = build_of(&list, list.n);
    check_build_time(&list);
    compare_answer(&call, known);
    try_siblings(&list, NULL);
    try_shape(&list, known);
    drop_list(&list);
}

/* As many triangles about a vertex as there can be, and one on their rim. The largest sizes compare such a fan. */
static void check_fan(void) {
    struct list list = fan(MOST - 1, 1);
    add_row(&list, 4, 3, 2, 0);
    check_build_time(&list);
    drop_list(&list);
}

/* `times` times the first letter of the pattern, then the rest. */
static struct list long_slices(uint32_t times, const char *pattern, int closed) {
    size_t rest = strlen(pattern + 1);
    char *letters = malloc(times + rest + 1);
    if (letters == NULL)
        exit(2);
    memset(letters, pattern[0], times);
    memcpy(letters + times, pattern + 1, rest + 1);
    struct list list = slices(letters, closed);
    free(letters);
    return list;
}

/* Quadrilaterals about a vertex, the last of them as the pattern has it. */
static void check_petals(uint32_t times, const char *pattern, struct answer known) {
    struct list list = long_slices(times, pattern, 0);
    check_recovery_time(&list);
    check_large(list, known);
}

/* Triangles apart, and then each of them again, turned over. */
static struct list back_to_back(uint32_t count) {
    struct list list = empty_list(3 * count, 2 * (size_t)count);
    for (uint32_t v = 0; v < list.n; v += 3)
        add_row(&list, v + 1, v + 2, v + 3, 0);
    for (uint32_t v = 0; v < list.n; v += 3)
        add_row(&list, v + 1, v + 3, v + 2, 0);
    return list;
}

void time_of_meeting(struct dice *dice) {
    enum { MANY = 300000, THIRD = MOST / 3 };
    (void)dice;
    check_fan();
    check_petals(MANY, "P", (struct answer){0, 2 * MANY + 2, 3 * MANY + 1});
    check_petals(MANY - 2, "PWW", (struct answer){18, MANY - 1, MANY});
    check_large(long_slices(MANY, "W", 1), (struct answer){18, 1, 2});
    check_large(long_slices(MOST - 8, "TAAAWW", 0), (struct answer){18, MOST - 1, MOST});
    check_large(back_to_back(THIRD), (struct answer){18, 1, THIRD + 1});
}
