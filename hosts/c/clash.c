#include "clash.h"

#include "room.h"
#include "sorting.h"

#include <stdlib.h>

static uint32_t corner_count(const uint32_t *row) {
    return row[3] == 0 ? 3 : 4;
}

/* ---- every two elements ---- */

static int has_corner(const uint32_t *row, uint32_t v) {
    for (uint32_t i = 0; i < corner_count(row); i++)
        if (row[i] == v)
            return 1;
    return 0;
}

/* whether a side joins a and b, in either direction */
static int has_side(const uint32_t *row, uint32_t a, uint32_t b) {
    for (uint32_t i = 0; i < corner_count(row); i++) {
        uint32_t origin = row[i], destination = row[(i + 1) % corner_count(row)];
        if ((origin == a && destination == b) || (origin == b && destination == a))
            return 1;
    }
    return 0;
}

static int meet_well(const uint32_t *f, const uint32_t *g) {
    uint32_t shared[4], count = 0;
    for (uint32_t i = 0; i < corner_count(f); i++)
        if (has_corner(g, f[i]))
            shared[count++] = f[i];
    if (count < 2)
        return 1;
    return count == 2 && has_side(f, shared[0], shared[1]) && has_side(g, shared[0], shared[1]);
}

struct clash clash_by_pairs(const uint32_t *rows, size_t m) {
    for (uint32_t f = 0; f < m; f++)
        for (uint32_t g = f + 1; g < m; g++)
            if (!meet_well(rows + 4 * (size_t)f, rows + 4 * (size_t)g))
                return (struct clash){f + 1, g + 1};
    return (struct clash){0, 0};
}

/* ---- elements that share two corners ---- */

/* Two corners of element f, the lesser vertex first; beside them f, and whether they are the ends of a diagonal. */
static uint64_t two_corners(const uint32_t *row, uint32_t i, uint32_t j, uint32_t f) {
    uint32_t a = row[i], b = row[j], diagonal = corner_count(row) == 4 && j == i + 2;
    return pair_of(a < b ? a : b, a < b ? b : a, 2 * f + diagonal);
}

static uint32_t element_of(uint64_t corners) {
    return beside_of(corners) / 2;
}

static int is_diagonal(uint64_t corners) {
    return beside_of(corners) % 2 == 1;
}

/* Every two corners of every element, elements in order. Returns their number. */
static size_t all_corners(const uint32_t *rows, size_t m, uint64_t *all) {
    size_t count = 0;
    for (uint32_t f = 1; f <= m; f++, rows += 4)
        for (uint32_t j = 1; j < corner_count(rows); j++)
            for (uint32_t i = 0; i < j; i++)
                all[count++] = two_corners(rows, i, j, f);
    return count;
}

/* Of the elements that share two corners, the first two for one of which these are no side. */
static struct clash on_diagonal(const uint64_t *corners, size_t count) {
    for (size_t i = 1; i < count; i++)
        if (is_diagonal(corners[0]) || is_diagonal(corners[i]))
            return (struct clash){element_of(corners[0]), element_of(corners[i])};
    return (struct clash){0, 0};
}

/* Of the elements that share two corners, the two for which these are a side, where there are two. Returns how many
   edges were noted. */
static size_t note_edge(const uint64_t *corners, size_t count, uint64_t *edge) {
    uint32_t f = 0;
    for (size_t i = 0; i < count; i++) {
        if (!is_diagonal(corners[i]) && f != 0) {
            *edge = pair_of(f, element_of(corners[i]), 0);
            return 1;
        }
        if (!is_diagonal(corners[i]))
            f = element_of(corners[i]);
    }
    return 0;
}

/* The first two elements that share two edges, and so three corners. */
static struct clash on_two_edges(const uint64_t *edges, size_t count) {
    for (size_t i = 1; i < count; i++)
        if (same_pair(edges[i - 1], edges[i]))
            return (struct clash){first_of(edges[i]), second_of(edges[i])};
    return (struct clash){0, 0};
}

static struct clash lesser(struct clash a, struct clash b) {
    if (a.lower == 0 || b.lower == 0)
        return a.lower == 0 ? b : a;
    return a.lower < b.lower || (a.lower == b.lower && a.higher < b.higher) ? a : b;
}

/* Three corners that two elements share are three pairs: all are sides of both, or one is a diagonal. */
struct clash clash_by_sorting(const uint32_t *rows, size_t m) {
    uint64_t *corners = room_for(6 * m, sizeof *corners), *edges = room_for(3 * m, sizeof *edges);
    size_t count = all_corners(rows, m, corners), noted = 0;
    struct clash least = {0, 0};
    sort_pairs(corners, count);
    for (size_t start = 0, run; start < count; start += run) {
        run = run_of_pairs(corners + start, count - start);
        least = lesser(least, on_diagonal(corners + start, run));
        noted += note_edge(corners + start, run, edges + noted);
    }
    sort_pairs(edges, noted);
    least = lesser(least, on_two_edges(edges, noted));
    free(corners);
    free(edges);
    return least;
}
