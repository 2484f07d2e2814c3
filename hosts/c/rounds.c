#include "rounds.h"

#include "borzhanu.h"
#include "calls.h"
#include "meshes.h"
#include "room.h"

#include <stdlib.h>

static const uint32_t *row_of(struct slice elements, uint32_t side) {
    return elements.at + 4 * (borzhanu_element_of(side) - 1);
}

static int is_side(struct slice elements, uint32_t code) {
    uint32_t f = borzhanu_element_of(code), i = borzhanu_number_of(code);
    return f >= 1 && f <= elements.len / 4 && i >= 1 && i <= corners_of(row_of(elements, code));
}

static uint32_t origin_of(struct slice elements, uint32_t side) {
    return row_of(elements, side)[borzhanu_number_of(side) - 1];
}

static uint32_t destination_of(struct slice elements, uint32_t side) {
    const uint32_t *row = row_of(elements, side);
    return row[borzhanu_number_of(side) % corners_of(row)];
}

/* The two vertices that a side joins, as one number, whichever is its origin. */
static uint64_t joined_by(struct slice elements, uint32_t side) {
    uint64_t a = origin_of(elements, side), b = destination_of(elements, side);
    return a < b ? a << 32 | b : b << 32 | a;
}

/* ---- sets of two vertices ---- */

/* 2^bits places, half of which at least are free: 0. */
struct set {
    uint64_t *at;
    int bits;
};

static struct set empty_set(size_t most) {
    struct set set = {NULL, 1};
    while ((size_t)1 << set.bits < 2 * most)
        set.bits++;
    set.at = room_for((size_t)1 << set.bits, sizeof *set.at);
    return set;
}

/* Puts a number into the set. Returns 0 where it was there. */
static int put_into(struct set *set, uint64_t number) {
    size_t last = ((size_t)1 << set->bits) - 1, place = number * 0x9E3779B97F4A7C15u >> (64 - set->bits);
    while (set->at[place] != 0 && set->at[place] != number)
        place = (place + 1) & last;
    if (set->at[place] == number)
        return 0;
    set->at[place] = number;
    return 1;
}

/* ---- following the map ---- */

static void check_step(struct slice elements, uint32_t start, uint32_t side, uint32_t sibling) {
    if (!is_side(elements, sibling))
        fail("the sibling of a side is no side");
    if (joined_by(elements, sibling) != joined_by(elements, start))
        fail("a side and its sibling don't join the same two vertices");
    if (sibling != start && sibling <= side)
        fail("siblings don't rise until the first comes again");
}

/* From the least side that no round has met. Where a round before had met some of these sides and not all, its two
   vertices come again. */
static void check_round(struct slice elements, struct slice siblings, uint32_t start, unsigned char *met,
                        struct set *edges) {
    uint32_t side = start;
    if (!put_into(edges, joined_by(elements, start)))
        fail("siblings come round without a side of the same two vertices");
    do {
        uint32_t sibling = borzhanu_sibling(siblings.at, siblings.len, side);
        check_step(elements, start, side, sibling);
        side = sibling;
        met[4 * borzhanu_element_of(side) + borzhanu_number_of(side)] = 1;
    } while (side != start);
}

void check_rounds(struct slice elements, struct slice siblings) {
    uint32_t m = (uint32_t)(elements.len / 4);
    unsigned char *met = room_for(4 * ((size_t)m + 2), 1);
    struct set edges = empty_set(elements.len);
    for (uint32_t f = 1; f <= m; f++) {
        uint32_t corners = corners_of(row_of(elements, borzhanu_side(f, 1)));
        if (corners == 3 && borzhanu_sibling(siblings.at, siblings.len, borzhanu_side(f, 4)) != 0)
            fail("a triangle's fourth entry isn't 0");
        for (uint32_t i = 1; i <= corners; i++)
            if (!met[4 * f + i])
                check_round(elements, siblings, borzhanu_side(f, i), met, &edges);
    }
    free(met);
    free(edges.at);
}

void check_least_sides(struct slice elements, struct slice v2e) {
    for (uint32_t v = 1; v <= v2e.len; v++) {
        uint32_t entry = v2e.at[v - 1];
        if (entry != 0 && (!is_side(elements, entry) || origin_of(elements, entry) != v))
            fail("the entry of a vertex is no side from it");
    }
    for (size_t p = 0; p < elements.len; p++) {
        uint32_t v = elements.at[p], side = borzhanu_side((uint32_t)(p / 4 + 1), (uint32_t)(p % 4 + 1));
        if (v != 0 && (v2e.at[v - 1] == 0 || v2e.at[v - 1] > side))
            fail("the entry of a vertex isn't its least side");
    }
}

void check_opposites(const struct mesh *t, struct slice siblings) {
    uint32_t m = (uint32_t)(t->elements.len / 4), columns = columns_of(t->elements);
    for (uint32_t f = 1; f <= m; f++)
        for (uint32_t i = 1; i <= corners_of(row_of(t->elements, borzhanu_side(f, 1))); i++) {
            uint32_t side = borzhanu_side(f, i), opposite = t->e2e.at[columns * (f - 1) + (i - 1)];
            uint32_t expected = borzhanu_is_border_code(opposite) ? side : opposite;
            if (borzhanu_sibling(siblings.at, siblings.len, side) != expected)
                fail("the sibling of a side isn't what building says");
        }
}
