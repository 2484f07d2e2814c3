/* Coarsens the side plate of a housing, which has a cable hole: of the edges shorter than 10 mm the shortest is
   contracted, one after the other, until none is left that can be. Of its two ends the one on a border stays. The hole
   has only three edges, so it stays as well.

       4 ------------------- 3
       |                     |
       |        7            |      80 x 60 mm; the lines of the border, and vertex 9 near the hole.
       |       / \           |      1 to 8 is 3 mm long, 6 to 9 is 5 mm
       |      5 - 6  9       |
       |                     |
       1 - 8 --------------- 2
*/
#include "borzhanu.h"

#include <math.h>
#include <stdio.h>
#include <stdlib.h>
#include <string.h>

enum { N = 9, M = 10, WORK = N + 16 * M };

static const double limit = 10;

static uint32_t size[2] = {N, M}, k, edges;
static uint32_t plates[4 * M] = {1, 8, 5, 0, 8, 6, 5, 0, 8, 9, 6, 0, 8, 2, 9, 0, 2, 3, 9, 0,
                                 3, 7, 9, 0, 7, 6, 9, 0, 3, 4, 7, 0, 4, 5, 7, 0, 4, 1, 5, 0};
static double points[3 * N] = {0,  0,  0, 80, 0,  0, 80, 60, 0, 0, 60, 0, 36, 26, 0,
                               44, 26, 0, 40, 33, 0, 3,  0,  0, 49, 26, 0}; /* in millimetres */
static uint32_t v2e[N], e2e[3 * M], b2e[N], work[WORK];

/* The buffers cut to what they hold now: after a contraction that is less. */
static borzhanu_mesh mesh(void) {
    return (borzhanu_mesh){.n = size[0], .columns = 3, .elements = plates, .elements_len = 4 * size[1], .v2e = v2e,
                           .v2e_len = size[0], .e2e = e2e, .e2e_len = 3 * size[1], .b2e = b2e, .b2e_len = k};
}

static int refused(uint64_t returned) {
    uint32_t refusal = borzhanu_refusal(returned);
    if (refusal == 0)
        return 0;
    printf("refusal %u at %u,%u: %s\n", refusal, borzhanu_first(returned), borzhanu_second(returned),
           borzhanu_refusal_text(refusal));
    return 1;
}

/* What a query answered; on tables of a mesh none below is refused. */
static uint32_t answer(uint64_t returned) {
    if (refused(returned))
        exit(1);
    return borzhanu_first(returned);
}

static uint32_t origin(uint32_t side) {
    const borzhanu_mesh plate = mesh();
    return answer(borzhanu_mesh_origin(&plate, side));
}

static uint32_t destination(uint32_t side) {
    const borzhanu_mesh plate = mesh();
    return answer(borzhanu_mesh_destination(&plate, side));
}

static int is_on_border(uint32_t v) {
    const borzhanu_mesh plate = mesh();
    return answer(borzhanu_mesh_vertex_is_border(&plate, v)) == BORZHANU_RIM;
}

/* ---- short edges ---- */

static double length(uint32_t side) {
    const double *p = points + 3 * (origin(side) - 1), *q = points + 3 * (destination(side) - 1);
    return sqrt((q[0] - p[0]) * (q[0] - p[0]) + (q[1] - p[1]) * (q[1] - p[1]) + (q[2] - p[2]) * (q[2] - p[2]));
}

/* The end that goes is the destination: not a vertex on a border for the sake of one that isn't. */
static int keeps_borders(uint32_t side) {
    return is_on_border(origin(side)) || !is_on_border(destination(side));
}

/* The first of the shortest sides under the limit that hasn't been tried; 0: there is none. */
static uint32_t shortest_side(const int *tried) {
    uint32_t shortest = 0;
    double least = limit;
    for (uint32_t f = 1; f <= size[1]; f++)
        for (uint32_t i = 1; i <= 3; i++) {
            uint32_t side = borzhanu_side(f, i);
            if (!tried[side] && length(side) < least && keeps_borders(side)) {
                shortest = side;
                least = length(side);
            }
        }
    return shortest;
}

/* ---- contracting ---- */

static void print_counts(void) {
    printf("%u vertices, %u triangles, %u edges, %u on the border\n", size[0], size[1], edges, k);
}

/* Contracts the edge of a side. n and m are in `size` then, and k and the number of edges are kept here. */
static int contract(uint32_t side) {
    uint32_t n = size[0], b = destination(side);
    printf("contract %u to %u, %.1f mm: ", origin(side), b, length(side));
    uint64_t returned =
        borzhanu_contract(size, plates, 4 * M, v2e, N, e2e, 3 * M, b2e, N, points, 3 * N, work, WORK, side);
    if (refused(returned))
        return 0;
    k = borzhanu_first(returned);
    edges = borzhanu_second(returned);
    print_counts();
    /* data of one's own about vertices move with the numbers, as the points do */
    if (b != n)
        printf("  vertex %u is vertex %u now\n", n, b);
    return 1;
}

/* ---- what building says ---- */

static int same(const uint32_t *a, const uint32_t *b, size_t len) {
    return memcmp(a, b, len * sizeof *a) == 0;
}

/* The tables that the contractions left are those of the list that they left. */
static void build_again(void) {
    static uint32_t v[N], e[3 * M], b[N];
    uint32_t n = size[0], m = size[1];
    uint64_t built = borzhanu_build(n, plates, 4 * m, v, n, e, 3 * m, b, N, work, WORK);
    uint32_t borders = answer(built);
    printf("build of this list: %u edges, %u on the border; its tables are %s\n", borzhanu_second(built), borders,
           borders == k && same(v, v2e, n) && same(e, e2e, 3 * m) && same(b, b2e, k) ? "the same" : "others");
}

int main(void) {
    uint64_t built = borzhanu_build(N, plates, 4 * M, v2e, N, e2e, 3 * M, b2e, N, work, WORK);
    k = answer(built);
    edges = borzhanu_second(built);
    printf("plate as meshed: ");
    print_counts();

    /* Rows and vertices get other numbers: the next edge is looked for anew. A refused contraction leaves everything as
       it was: that side isn't tried again until another edge is contracted. */
    int tried[8 * (M + 1)] = {0};
    for (uint32_t side = shortest_side(tried); side != 0; side = shortest_side(tried)) {
        tried[side] = 1;
        if (contract(side))
            memset(tried, 0, sizeof tried);
    }
    printf("plate coarsened: ");
    print_counts();
    for (uint32_t f = 1; f <= size[1]; f++)
        printf("  plate %u: %u %u %u\n", f, plates[4 * f - 4], plates[4 * f - 3], plates[4 * f - 2]);
    build_again();
    return 0;
}
