/* Smooths a flat panel of a duct: where the diagonal of two triangles is longer than the other one would be, it is
   swapped. The panel is drawn as if its seams were upright. They lean to the left, so that the diagonals 3 to 6 and
   4 to 7 are long, and plates 3 to 6 are slivers:

       5 ----- 6 ----- 7 ----- 8
       |  2  / | \  4  | \  6  |
       |   /   |   \   |   \   |
       | /  1  | 3   \ | 5   \ |
       1 ----- 2 ----- 3 ----- 4
*/
#include "borzhanu.h"

#include <math.h>
#include <stdio.h>
#include <stdlib.h>

enum { N = 8, M = 6, WORK = N + 16 * M };

/* in millimetres */
static const struct point {
    int x, y;
} points[N] = {{0, 0}, {100, 0}, {200, 0}, {300, 0}, {0, 80}, {60, 80}, {120, 80}, {200, 80}};

static uint32_t size[2] = {N, M};
static uint32_t plates[4 * M] = {1, 2, 6, 0, 1, 6, 5, 0, 2, 3, 6, 0, 3, 7, 6, 0, 3, 4, 7, 0, 4, 8, 7, 0};
static uint32_t v2e[N], e2e[3 * M], b2e[N], work[WORK];

/* Reads the buffers that a swap writes. n, m, k and the columns are the same afterwards, so nothing here changes. */
static borzhanu_mesh mesh = {.n = N, .columns = 3, .elements = plates, .elements_len = 4 * M, .v2e = v2e, .v2e_len = N,
                             .e2e = e2e, .e2e_len = 3 * M, .b2e = b2e};

static int refused(uint64_t returned) {
    uint32_t refusal = borzhanu_refusal(returned);
    if (refusal == 0)
        return 0;
    printf("refusal %u at %u,%u: %s\n", refusal, borzhanu_first(returned), borzhanu_second(returned),
           borzhanu_refusal_text(refusal));
    return 1;
}

/* What a query answered; on tables of a mesh none below is refused. */
static uint32_t answer(uint64_t returned) {
    if (refused(returned))
        exit(1);
    return borzhanu_first(returned);
}

static uint64_t swap(uint32_t side) {
    return borzhanu_swap(size, plates, 4 * M, v2e, N, e2e, 3 * M, b2e, N, work, WORK, side);
}

/* ---- lengths ---- */

static double length(uint32_t a, uint32_t b) {
    return hypot(points[b - 1].x - points[a - 1].x, points[b - 1].y - points[a - 1].y);
}

/* Whether three corners run to the left, as those of every plate do. */
static int is_left_turn(uint32_t a, uint32_t b, uint32_t c) {
    struct point p = points[a - 1], q = points[b - 1], r = points[c - 1];
    return (q.x - p.x) * (r.y - p.y) > (r.x - p.x) * (q.y - p.y);
}

static uint32_t origin(uint32_t side) {
    return answer(borzhanu_mesh_origin(&mesh, side));
}

/* The corner of a triangle that isn't on a side of it. */
static uint32_t third_corner(uint32_t side) {
    return origin(answer(borzhanu_mesh_previous(&mesh, side)));
}

static double side_length(uint32_t side) {
    return length(origin(side), answer(borzhanu_mesh_destination(&mesh, side)));
}

/* ---- printing ---- */

static void print_edge(uint32_t side) {
    printf("%u to %u, %.1f mm", origin(side), answer(borzhanu_mesh_destination(&mesh, side)), side_length(side));
}

static void print_panel(const char *when, uint64_t returned) {
    uint32_t longest = borzhanu_side(1, 1), ring[M];
    for (uint32_t f = 1; f <= M; f++)
        for (uint32_t i = 1; i <= 3; i++)
            if (side_length(borzhanu_side(f, i)) > side_length(longest))
                longest = borzhanu_side(f, i);
    printf("panel %s: %u edges, %u on the border, longest ", when, borzhanu_second(returned),
           borzhanu_first(returned));
    print_edge(longest);
    printf("\n  plates at vertex 3:");
    uint32_t count = answer(borzhanu_mesh_ring(&mesh, 3, ring, M));
    for (uint32_t i = 0; i < count; i++)
        printf(" %u", ring[i]);
    printf("\n");
}

struct triangle {
    uint32_t corners[3];
};

static struct triangle triangle_of(uint32_t f) {
    const uint32_t *row = plates + 4 * (f - 1);
    return (struct triangle){{row[0], row[1], row[2]}};
}

static void print_change(uint32_t f, struct triangle before) {
    struct triangle after = triangle_of(f);
    printf("  plate %u: %u %u %u becomes %u %u %u\n", f, before.corners[0], before.corners[1], before.corners[2],
           after.corners[0], after.corners[1], after.corners[2]);
}

/* ---- smoothing ---- */

/* Whether the other diagonal is shorter. Where the two triangles have a hollow corner it would lie outside them, and
   one of the new ones would be turned over. */
static int is_better(uint32_t a, uint32_t b, uint32_t c, uint32_t d) {
    return length(c, d) < length(a, b) && is_left_turn(c, a, d) && is_left_turn(d, b, c);
}

/* Swaps the edge of a side where that is better, and puts k and the edges that swapping answered into `counts`. Each
   inner edge is looked at once, from its lower side. */
static int smooth_side(uint32_t side, uint64_t *counts) {
    uint32_t partner = answer(borzhanu_mesh_opposite(&mesh, side));
    if (borzhanu_is_border_code(partner) || partner < side)
        return 0;
    uint32_t a = origin(side), b = origin(partner), c = third_corner(side), d = third_corner(partner);
    if (!is_better(a, b, c, d))
        return 0;

    uint32_t f = borzhanu_element_of(side), g = borzhanu_element_of(partner);
    struct triangle old_f = triangle_of(f), old_g = triangle_of(g);
    printf("swap ");
    print_edge(side);
    uint64_t swapped = swap(side);
    if (borzhanu_refusal(swapped) != 0) {
        printf(": ");
        refused(swapped);
        return 0;
    }
    printf(", for %u to %u, %.1f mm\n", c, d, length(c, d));
    print_change(f, old_f);
    print_change(g, old_g);
    *counts = swapped;
    return 1;
}

/* Until no edge can be made shorter: every swap makes all edges together shorter, so this ends. */
static void smooth(uint64_t *counts) {
    int swaps;
    do {
        swaps = 0;
        for (uint32_t f = 1; f <= M; f++)
            for (uint32_t i = 1; i <= 3; i++)
                swaps += smooth_side(borzhanu_side(f, i), counts);
    } while (swaps != 0);
}

int main(void) {
    uint64_t counts = borzhanu_build(N, plates, 4 * M, v2e, N, e2e, 3 * M, b2e, N, work, WORK);
    mesh.b2e_len = answer(counts);
    print_panel("as meshed", counts);
    smooth(&counts);
    print_panel("smoothed", counts);

    /* The rim of the panel has no other diagonal. A refused swap leaves everything as it was: one goes on. */
    printf("edge 1 to 2: ");
    refused(swap(borzhanu_side(1, 1)));
    return 0;
}
