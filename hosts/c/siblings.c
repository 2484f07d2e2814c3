#include "siblings.h"

#include "asking.h"
#include "borzhanu.h"
#include "cases.h"
#include "ribs.h"
#include "room.h"

#include <stdio.h>
#include <string.h>

/* of elements and of vertices */
enum { MOST = BORZHANU_MAX_ELEMENTS };

/* ---- known maps ---- */

static void check_case(const struct sibling_case *c) {
    struct list list = {c->n, c->m, c->m, (uint32_t *)c->rows};
    struct call call = siblings_of(&list);
    struct slice results[ROLES];
    if (compare(&call, results).refusal != 0 || memcmp(results[V2E].at, c->v2e, c->n * sizeof *c->v2e) != 0 ||
        memcmp(results[SIBLINGS].at, c->siblings, 4 * c->m * sizeof *c->siblings) != 0) {
        printf("MISMATCH: case '%s': siblings aren't as worked out\n", c->name);
        stop();
    }
    try_siblings(&list, NULL);
}

static uint32_t plates_at(struct slice siblings, uint32_t side) {
    uint32_t count = 0, at = side;
    do {
        at = borzhanu_sibling(siblings.at, siblings.len, at);
        count++;
    } while (at != side);
    return count;
}

/* How many edges have so many plates. */
static uint32_t edges_with(struct slice elements, struct slice siblings, uint32_t plates) {
    uint32_t sides = 0;
    for (uint32_t f = 1; f <= elements.len / 4; f++)
        for (uint32_t i = 1; i <= corners_of(elements.at + 4 * (f - 1)); i++)
            sides += plates_at(siblings, borzhanu_side(f, i)) == plates;
    return sides / plates;
}

/* `edges` are how many have one plate, two, and so on. */
static void check_edges(struct list list, const uint32_t *edges, uint32_t most, struct dice *dice) {
    struct slice results[ROLES];
    for (int i = 0; i < 4; i++, disguise(&list, dice)) {
        struct call call = siblings_of(&list);
        compare(&call, results);
        for (uint32_t plates = 1; plates <= most; plates++)
            if (edges_with(results[ELEMENTS], results[SIBLINGS], plates) != edges[plates - 1])
                fail("edges haven't as many plates as the list was made with");
        try_siblings(&list, NULL);
    }
    drop_list(&list);
}

/* Quadrilaterals on one edge: two more edges of each go up from it, and one joins these. */
static void check_fins(uint32_t count, struct dice *dice) {
    enum { PLATES = 40 };
    uint32_t edges[PLATES] = {0};
    edges[0] = 3 * count;
    edges[count - 1] += 1;
    check_edges(leaves(count, 1, 1, QUADRILATERALS, dice), edges, PLATES, dice);
}

/* Walls have an edge above each, by itself. A floor's rim has two plates and its other edges three; upright edges have
   two at its corners, three along its rim and four within. */
static void check_compartments(uint32_t w, uint32_t h, struct dice *dice) {
    uint32_t inner = h * (w - 1) + w * (h - 1), rim = 2 * (w + h);
    uint32_t edges[] = {inner + rim, rim + 4, inner + rim - 4, (w - 1) * (h - 1), 0};
    check_edges(compartments(w, h, dice), edges, COUNT(edges), dice);
}

/* ---- known answers ---- */

/* A list of noise has unfit corners too, which come after lengths. */
static void check_length(const struct call *call, enum role role, long change, uint32_t refusal) {
    struct call other = *call;
    other.given[role] = noise_of(role, (size_t)((long)call->given[role].len + change));
    compare_with(&other, refusal, 0);
}

static void check_lengths(struct list list) {
    struct call call = siblings_of(&list);
    for (long change = -1; change <= 1; change += 2) {
        check_length(&call, ELEMENTS, change, 1);
        check_length(&call, ELEMENTS, 4 * change, 2);
        check_length(&call, V2E, change, 2);
        check_length(&call, SIBLINGS, change, 2);
        check_length(&call, SIBLINGS, change * (long)list.m, 2);
        check_length(&call, WORK, change, change < 0 ? 2 : 0);
    }
    check_length(&call, WORK, 1000, 0);
    drop_list(&list);
}

/* The last row of a list as long as can be has a corner 0, and then a corner twice. */
static void check_last_row(struct list list) {
    struct call calls[] = {siblings_of(&list), build_of(&list, 0)};
    uint32_t *third = list.rows + 4 * list.m - 2, element = (uint32_t)list.m;
    for (size_t i = 0; i < COUNT(calls); i++) {
        *third = 0;
        compare_answer(&calls[i], (struct answer){3, element, 3});
        *third = third[-1];
        compare_answer(&calls[i], (struct answer){4, element, 3});
    }
    drop_list(&list);
}

/* ---- any lists ---- */

/* Returns what building refuses it for, or 0. */
static uint32_t try_any(struct dice *dice, uint32_t size) {
    struct list list = any_ribs(dice, size);
    struct mesh t;
    disguise(&list, dice);
    for (uint32_t times = below(dice, 4); times > 0; times--)
        double_plate(&list, dice);
    if (below(dice, 4) == 0)
        add_spare(&list, below(dice, list.n + 1), 1 + below(dice, 3));
    if (below(dice, 4) == 0)
        damage_list(&list, dice);
    struct call building = build_of(&list, list.n);
    uint32_t refusal = compare(&building, NULL).refusal;
    if (tried_building(&list, &t))
        drop_tables(&t);
    drop_list(&list);
    return refusal;
}

/* At least a fifth of the lists has an edge of three, and a fiftieth has none and sides that run alike. */
static void many_lists(struct dice *dice) {
    enum { LISTS = 10000 };
    int crowded = 0, alike = 0;
    for (int i = 0; i < LISTS; i++) {
        uint32_t refusal = try_any(dice, i % 10 == 0 ? 60 : 8);
        crowded += refusal == 6;
        alike += refusal == 7;
    }
    if (crowded >= LISTS / 5 && alike >= LISTS / 50)
        return;
    printf("MISMATCH: of %d lists too few have edges of three, %d, or sides that run alike, %d\n", (int)LISTS, crowded,
           alike);
    stop();
}

void edges_of_plates(struct dice *dice) {
    static const uint32_t sizes[] = {1000, 10000, 100000};
    for (size_t i = 0; i < sibling_case_count; i++)
        check_case(&sibling_cases[i]);
    for (uint32_t count = 1; count <= 40; count++)
        check_fins(count, dice);
    for (uint32_t i = 0; i < 16; i++)
        check_compartments(1 + i % 4, 1 + i / 4, dice);
    for (int i = 0; i < 3; i++)
        check_lengths(panel(2, 2, 1, (enum kinds)i, dice));
    check_last_row(book(MOST, MOST));
    many_lists(dice);
    for (size_t i = 0; i < COUNT(sizes); i++)
        try_any(dice, sizes[i]);
}

/* ---- time ---- */

/* The calls below take less than a tenth of a second. A step for each two sides on an edge, or about a vertex, would be
   5 * 10^11 steps. */
static void check_large(struct list list) {
    static const double allowed = 5;
    struct call call = siblings_of(&list);
    check_time(&call, 1, allowed);
    try_siblings(&list, NULL);
    drop_list(&list);
}

/* Triangles on the edge from 1 to 2, all in its direction. */
static struct list alike(void) {
    struct list list = empty_list(MOST, MOST);
    for (uint32_t i = 0; i < MOST; i++)
        add_row(&list, 1, 2, 3 + i % (MOST - 2), 0);
    return list;
}

/* The vertices numbered from the last to the first. */
static struct list mirrored(struct list list) {
    for (size_t p = 0; p < 4 * list.m; p++)
        if (list.rows[p] != 0)
            list.rows[p] = list.n + 1 - list.rows[p];
    return list;
}

void time_of_siblings(struct dice *dice) {
    static const uint32_t triangle[] = {1, 2, 3, 0}, quadrilateral[] = {1, MOST / 3, MOST / 2, MOST};
    check_large(alike());
    check_large(shuffled(book(MOST, MOST), dice));
    check_large(pile(3, MOST, triangle, 0));
    check_large(pile(MOST, MOST, quadrilateral, 1));
    check_large(mirrored(fan(MOST - 1, 1)));
}
