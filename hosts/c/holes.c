#include "holes.h"

#include "asking.h"
#include "borzhanu.h"
#include "room.h"

#include <stdio.h>
#include <stdlib.h>

/* of elements and of vertices */
enum { MOST = BORZHANU_MAX_ELEMENTS };

/* ---- known openings ---- */

/* so many openings of one length */
struct openings {
    uint32_t count, length;
};

static uint32_t holes_of_length(struct slice lengths, uint32_t holes, uint32_t length) {
    uint32_t count = 0;
    for (uint32_t h = 0; h < holes; h++)
        count += lengths.at[h] == length;
    return count;
}

static void check_openings(struct list list, struct openings some, struct openings others, struct dice *dice) {
    for (int i = 0; i < 4; i++, disguise(&list, dice)) {
        struct mesh t;
        struct slice results[ROLES];
        if (!built(&list, &t))
            exit(2);
        struct call call = holes_of(&t);
        uint32_t holes = compare(&call, results).first;
        if (holes != some.count + others.count || holes_of_length(results[LENGTHS], holes, some.length) != some.count ||
            holes_of_length(results[LENGTHS], holes, others.length) != others.count)
            fail("the openings aren't those that the list was made with");
        ask_holes(&t);
        drop_tables(&t);
    }
    drop_list(&list);
}

/* A sheet or a duct of quadrilaterals with width x height windows, each where one of them was. */
static struct list grille(uint32_t width, uint32_t height, int is_duct, struct dice *dice) {
    uint32_t cells = 2 * width + 1;
    struct list list = sheet(cells, 2 * height + 1, is_duct, 0, QUADRILATERALS, dice);
    for (uint32_t y = height; y-- > 0;)
        for (uint32_t x = width; x-- > 0;)
            take_row_out(&list, cells * (2 * y + 1) + 2 * x + 1);
    return list;
}

static void check_grilles(uint32_t width, uint32_t height, struct dice *dice) {
    uint32_t across = 2 * width + 1, along = 2 * height + 1;
    struct openings windows = {width * height, 4};
    check_openings(grille(width, height, 0, dice), (struct openings){1, 2 * (across + along)}, windows, dice);
    check_openings(grille(width, height, 1, dice), (struct openings){2, across}, windows, dice);
}

static void known_openings(struct dice *dice) {
    const struct openings none = {0, 0};
    for (uint32_t size = 1; size <= 12; size++) {
        enum kinds kinds = (enum kinds)(size % 3);
        check_openings(sheet(size, 2, 0, 0, kinds, dice), (struct openings){1, 2 * size + 4}, none, dice);
        check_openings(sheet(size + 2, 2, 1, 0, kinds, dice), (struct openings){2, size + 2}, none, dice);
        check_openings(sheet(size + 2, 3, 1, 1, kinds, dice), none, none, dice);
        check_openings(fan(size, 0), (struct openings){1, size + 2}, none, dice);
        check_openings(fan(size + 2, 1), (struct openings){1, size + 2}, none, dice);
        check_openings(apart(3, size), (struct openings){size, 3}, none, dice);
        check_openings(apart(4, size), (struct openings){size, 4}, none, dice);
        check_grilles(1 + size % 4, 1 + size / 4, dice);
    }
}

/* ---- damaged tables ---- */

static uint32_t one_of(const uint32_t *numbers, size_t count, struct dice *dice) {
    return numbers[below(dice, (uint32_t)count)];
}

/* The first entry of V2e, from any place on, that is a border, or that is a side; null: there is none. */
static uint32_t *any_entry(const struct mesh *t, int is_border, struct dice *dice) {
    uint32_t start = below(dice, t->n);
    for (uint32_t i = 0; i < t->n; i++) {
        uint32_t *entry = &t->v2e.at[(start + i) % t->n];
        if (*entry != 0 && borzhanu_is_border_code(*entry) == is_border)
            return entry;
    }
    return NULL;
}

static uint32_t *any_side(const struct mesh *t, struct dice *dice) {
    return t->b2e.len == 0 ? NULL : &t->b2e.at[below(dice, (uint32_t)t->b2e.len)];
}

static void add_border(struct mesh *t, uint32_t side) {
    struct slice longer = resized(B2E, t->b2e, t->b2e.len + 1);
    longer.at[t->b2e.len] = side;
    free(t->b2e.at);
    t->b2e = longer;
}

/* Two rims become one, or one becomes two. */
static void exchange_next(struct mesh *t, struct dice *dice) {
    uint32_t *a = any_entry(t, 1, dice), *b = any_entry(t, 1, dice);
    if (a != NULL)
        swap(a, b);
}

static void exchange_sides(struct mesh *t, struct dice *dice) {
    uint32_t *a = any_side(t, dice), *b = any_side(t, dice);
    if (a != NULL)
        swap(a, b);
}

/* An inner vertex becomes a rim by itself: the border half-edge that ends there leaves it too. */
static void add_lone(struct mesh *t, struct dice *dice) {
    uint32_t *entry = any_entry(t, 0, dice);
    if (entry == NULL)
        return;
    add_border(t, *entry);
    *entry = borzhanu_border((uint32_t)t->b2e.len);
}

static void run_into_rim(struct mesh *t, struct dice *dice) {
    uint32_t *entry = any_entry(t, 1, dice);
    if (entry != NULL)
        *entry = borzhanu_border(1 + below(dice, (uint32_t)t->b2e.len));
}

static void run_nowhere(struct mesh *t, struct dice *dice) {
    const uint32_t codes[] = {0, 1, borzhanu_side(1, 1), borzhanu_border((uint32_t)t->b2e.len + 1), any_number(dice)};
    uint32_t *entry = any_entry(t, 1, dice);
    if (entry != NULL)
        *entry = one_of(codes, COUNT(codes), dice);
}

/* Some of these are sides, others are codes that no side has. */
static uint32_t any_side_code(const struct mesh *t, struct dice *dice) {
    uint32_t m = (uint32_t)(t->elements.len / 4), f = 1 + below(dice, m);
    const uint32_t codes[] = {0,
                              borzhanu_border(1),
                              borzhanu_side(0, 1 + below(dice, 4)),
                              borzhanu_side(m + 1, 1),
                              borzhanu_side(f, 1 + below(dice, 7)),
                              borzhanu_side(f, 4),
                              *any_side(t, dice),
                              any_number(dice)};
    return one_of(codes, COUNT(codes), dice);
}

static void change_side(struct mesh *t, struct dice *dice) {
    if (t->b2e.len != 0)
        *any_side(t, dice) = any_side_code(t, dice);
}

/* The vertex where a border half-edge ends. */
static void change_corner(struct mesh *t, struct dice *dice) {
    const uint32_t corners[] = {0, t->n + 1, 1 + below(dice, t->n), any_number(dice)};
    uint32_t *side = any_side(t, dice), f = side == NULL ? 0 : borzhanu_element_of(*side);
    if (f >= 1 && f <= t->elements.len / 4)
        t->elements.at[4 * (f - 1) + (borzhanu_number_of(*side) - 1) % 4] = one_of(corners, COUNT(corners), dice);
}

static void lengthen(struct mesh *t, struct dice *dice) {
    for (uint32_t times = 1 + below(dice, 3); t->b2e.len != 0 && times > 0; times--)
        add_border(t, any_side_code(t, dice));
}

static void shorten(struct mesh *t, struct dice *dice) {
    size_t by = 1 + below(dice, 4);
    t->b2e.len = by < t->b2e.len ? t->b2e.len - by : 0;
}

/* Half of the times by the first three alone, after which every rim still comes round. */
static void damage_rims(struct mesh *t, struct dice *dice) {
    static void (*const damages[])(struct mesh *t, struct dice *dice) = {
        exchange_next, exchange_sides, add_lone, run_into_rim, run_nowhere,
        change_side,   change_corner,  lengthen, shorten,
    };
    uint32_t kinds = below(dice, 2) == 0 ? 3 : COUNT(damages);
    for (uint32_t times = 1 + below(dice, 4); times > 0; times--)
        damages[below(dice, kinds)](t, dice);
}

static struct list any_rims(struct dice *dice, uint32_t size) {
    uint32_t width = 1 + below(dice, 1 + size / 12), height = 1 + below(dice, 1 + size / (12 * width));
    switch (below(dice, 4)) {
    case 0:
        return grille(width, height, (int)below(dice, 2), dice);
    case 1:
        return apart(3 + below(dice, 2), 1 + below(dice, size / 2));
    default:
        return any_housing(dice, size);
    }
}

/* Sound, and then damaged. Returns what it is then refused for. */
static uint32_t try_any(struct dice *dice, uint32_t size) {
    struct list list = any_rims(dice, size);
    struct mesh t;
    disguise(&list, dice);
    if (!built(&list, &t)) {
        drop_list(&list);
        return try_any(dice, size);
    }
    if (ask_holes(&t).refusal != 0)
        fail("refused, though the tables were built");
    damage_rims(&t, dice);
    if (below(dice, 2) == 0)
        t.columns = columns_of(t.elements);
    uint32_t refusal = ask_holes(&t).refusal;
    drop_tables(&t);
    drop_list(&list);
    return refusal;
}

/* At least a fifth of the damaged tables has holes, and a fifth has none. */
static void many_tables(struct dice *dice) {
    enum { TABLES = 6000 };
    int answered = 0, broken = 0;
    for (int i = 0; i < TABLES; i++) {
        uint32_t refusal = try_any(dice, i % 10 == 0 ? 200 : 12);
        answered += refusal == 0;
        broken += refusal == 12;
    }
    if (answered >= TABLES / 5 && broken >= TABLES / 5)
        return;
    printf("MISMATCH: of %d tables too few have holes, %d, or a broken rim, %d\n", (int)TABLES, answered, broken);
    stop();
}

/* E2e of noise changes nothing. */
static void check_without_e2e(struct list list) {
    struct mesh t;
    if (!built(&list, &t))
        exit(2);
    struct call call = holes_of(&t), other = call;
    other.given[E2E] = noise_of(E2E, call.given[E2E].len);
    compare_answer(&other, compare(&call, NULL));
    drop_tables(&t);
    drop_list(&list);
}

void openings_of_housings(struct dice *dice) {
    known_openings(dice);
    check_without_e2e(grille(3, 2, 1, dice));
    check_without_e2e(sheet(3, 2, 0, 0, TRIANGLES, dice));
    many_tables(dice);
    try_any(dice, 1000);
    try_any(dice, 10000);
}

/* ---- time ---- */

static uint32_t end_of(const struct mesh *t, uint32_t b) {
    uint32_t side = t->b2e.at[b - 1];
    return t->elements.at[4 * (borzhanu_element_of(side) - 1) + borzhanu_number_of(side) - 1];
}

/* The tables that a list has; what is asked of them is told the columns. */
static struct mesh tables_of(struct list list) {
    struct slice rows = {list.rows, 4 * list.m};
    struct mesh t;
    if (!tables_but_for_18(list.n, rows, &t))
        exit(2);
    t.columns = columns_of(rows);
    drop_list(&list);
    return t;
}

/* The calls below take about a tenth of a second. A step for each two border half-edges of a rim, or for each two rims,
   would be 10^11 steps and more. */
static void check_large(struct mesh t, struct answer known) {
    static const double allowed = 5;
    struct call call = holes_of(&t);
    check_time(&call, 1, allowed);
    struct answer answer = compare_holes(&t, &call);
    if (answer.refusal != known.refusal || answer.first != known.first)
        fail("the answer isn't as worked out");
    drop_tables(&t);
}

/* The border half-edge before b is followed by the one after b: the rest comes round without b, which runs into it. */
static struct mesh passing(struct mesh t, uint32_t b) {
    uint32_t after = t.v2e.at[end_of(&t, b) - 1];
    for (uint32_t v = 0; v < t.n; v++)
        if (t.v2e.at[v] == borzhanu_border(b))
            t.v2e.at[v] = after;
    return t;
}

/* Each border half-edge is a rim by itself. */
static struct mesh parted(struct mesh t) {
    for (uint32_t b = 1; b <= t.b2e.len; b++)
        t.v2e.at[end_of(&t, b) - 1] = borzhanu_border(b);
    return t;
}

/* Every rim goes on to the next one, and the last to the first: the entry of a vertex on each moves on by one rim. */
static struct mesh joined(struct mesh t, uint32_t corners) {
    uint32_t first = t.v2e.at[0], v;
    for (v = 0; v + corners < t.n; v += corners)
        t.v2e.at[v] = t.v2e.at[v + corners];
    t.v2e.at[v] = first;
    return t;
}

/* As many border half-edges as there can be, all of whose sides are there, on four vertices. */
static struct mesh crowded(void) {
    struct list list = empty_list(4, MOST);
    while (list.m < MOST)
        add_row(&list, 1, 2, 3, 4);
    struct slice rows = {list.rows, 4 * list.m};
    struct mesh t = {list.n, 4, rows, copied(noise_of(V2E, list.n)), copied(noise_of(E2E, rows.len)),
                     copied(noise_of(B2E, rows.len))};
    for (uint32_t p = 0; p < rows.len; p++)
        t.b2e.at[p] = borzhanu_side(p / 4 + 1, p % 4 + 1);
    return parted(t);
}

void time_of_holes(struct dice *dice) {
    enum { THIRD = MOST / 3, MANY = 3 * THIRD };
    const struct answer one = {0, 1, 0}, broken = {12, 0, 0};
    struct mesh rims = tables_of(apart(3, THIRD)), rim = joined(copied_tables(&rims), 3);
    check_large(tables_of(shuffled(fan(MOST - 2, 0), dice)), one);
    check_large(passing(copied_tables(&rim), 1), broken);
    check_large(passing(copied_tables(&rim), MANY), broken);
    check_large(rim, one);
    check_large(passing(copied_tables(&rims), MANY), broken);
    check_large(parted(copied_tables(&rims)), (struct answer){0, MANY, 0});
    check_large(rims, (struct answer){0, THIRD, 0});
    check_large(crowded(), broken);
}
