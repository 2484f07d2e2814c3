/* Refines a plate near the bracket at its corner 1: of the edges there that are longer than 50 mm the longest is split
   at its midpoint, until none is left.

       4 ----------- 3                     4 ----------- 3
       |  2       /  |                     | \    4   /  |
       |       /     |                     |  2 \   /    |
       |    /        |      80 x 60 mm     7 ---- 5   1  |      refined
       | /        1  |                     | 6  / | \    |
       |             |                     |  / 3 |  5 \ |
       1 ----------- 2                     1 ---- 6 ---- 2
*/
#include "borzhanu.h"

#include <math.h>
#include <stdio.h>
#include <stdlib.h>
#include <string.h>

/* The plate, and room for it to grow. */
enum { N = 4, M = 2, MOST_N = 12, MOST_M = 16, WORK = MOST_N + 16 * MOST_M };
enum { BRACKET = 1 };

static const double limit = 50;

static uint32_t size[2] = {N, M}, k, edges;
static uint32_t plates[4 * MOST_M] = {1, 2, 3, 0, 1, 3, 4, 0};
static double points[3 * MOST_N] = {0, 0, 0, 80, 0, 0, 80, 60, 0, 0, 60, 0}; /* in millimetres */
static uint32_t v2e[MOST_N], e2e[3 * MOST_M], b2e[MOST_N], work[WORK];

/* The buffers cut to what they hold now: after a split that is more. */
static borzhanu_mesh mesh(void) {
    return (borzhanu_mesh){.n = size[0], .columns = 3, .elements = plates, .elements_len = 4 * size[1], .v2e = v2e,
                           .v2e_len = size[0], .e2e = e2e, .e2e_len = 3 * size[1], .b2e = b2e, .b2e_len = k};
}

static int refused(uint64_t returned) {
    uint32_t refusal = borzhanu_refusal(returned);
    if (refusal == 0)
        return 0;
    printf("refusal %u at %u,%u: %s\n", refusal, borzhanu_first(returned), borzhanu_second(returned),
           borzhanu_refusal_text(refusal));
    return 1;
}

/* What a query answered; on tables of a mesh none below is refused. */
static uint32_t answer(uint64_t returned) {
    if (refused(returned))
        exit(1);
    return borzhanu_first(returned);
}

/* Splits the edge of a side. n and m are in `size` then, and k and the number of edges are kept here. */
static int split(uint32_t side) {
    uint64_t returned = borzhanu_split(size, plates, 4 * MOST_M, v2e, MOST_N, e2e, 3 * MOST_M, b2e, MOST_N, points,
                                       3 * MOST_N, work, WORK, side);
    if (refused(returned))
        return 0;
    k = borzhanu_first(returned);
    edges = borzhanu_second(returned);
    return 1;
}

/* ---- lengths ---- */

static double length(uint32_t a, uint32_t b) {
    const double *p = points + 3 * (a - 1), *q = points + 3 * (b - 1);
    return sqrt((q[0] - p[0]) * (q[0] - p[0]) + (q[1] - p[1]) * (q[1] - p[1]) + (q[2] - p[2]) * (q[2] - p[2]));
}

static uint32_t origin(uint32_t side) {
    const borzhanu_mesh plate = mesh();
    return answer(borzhanu_mesh_origin(&plate, side));
}

static uint32_t destination(uint32_t side) {
    const borzhanu_mesh plate = mesh();
    return answer(borzhanu_mesh_destination(&plate, side));
}

/* The first side of the longest edge at the bracket that is over the limit; 0: there is none. */
static uint32_t longest_side(void) {
    uint32_t longest = 0;
    double most = limit;
    for (uint32_t f = 1; f <= size[1]; f++)
        for (uint32_t i = 1; i <= 3; i++) {
            uint32_t side = borzhanu_side(f, i), a = origin(side), b = destination(side);
            if ((a == BRACKET || b == BRACKET) && length(a, b) > most) {
                longest = side;
                most = length(a, b);
            }
        }
    return longest;
}

/* ---- printing ---- */

static void print_plate(const char *when) {
    const borzhanu_mesh plate = mesh();
    uint32_t around[MOST_M + 1];
    printf("plate %s: %u triangles, %u edges, %u on the border\n  at the bracket:", when, size[1], edges, k);
    uint32_t count = answer(borzhanu_mesh_neighbours(&plate, BRACKET, around, MOST_M + 1));
    for (uint32_t i = 0; i < count; i++)
        printf("%s %d to %u, %.1f mm", i == 0 ? "" : ";", BRACKET, around[i], length(BRACKET, around[i]));
    printf("\n");
}

/* The rows that a split changed, and those that it appended. */
static void print_changes(const uint32_t *before, uint32_t m) {
    for (uint32_t f = 1; f <= size[1]; f++) {
        const uint32_t *old = before + 4 * (f - 1), *row = plates + 4 * (f - 1);
        if (f > m)
            printf("  plate %u: %u %u %u\n", f, row[0], row[1], row[2]);
        else if (memcmp(old, row, 4 * sizeof *row) != 0)
            printf("  plate %u: %u %u %u becomes %u %u %u\n", f, old[0], old[1], old[2], row[0], row[1], row[2]);
    }
}

int main(void) {
    uint64_t built = borzhanu_build(N, plates, 4 * M, v2e, N, e2e, 3 * M, b2e, N, work, N + 16 * M);
    k = answer(built);
    edges = borzhanu_second(built);
    print_plate("as meshed");

    for (uint32_t side = longest_side(); side != 0; side = longest_side()) {
        uint32_t before[4 * MOST_M], m = size[1];
        memcpy(before, plates, sizeof before);
        printf("split %u to %u, %.1f mm: ", origin(side), destination(side), length(origin(side), destination(side)));
        if (!split(side))
            return 1;
        const double *point = points + 3 * (size[0] - 1);
        printf("vertex %u at %.1f %.1f %.1f\n", size[0], point[0], point[1], point[2]);
        print_changes(before, m);
    }
    print_plate("refined");

    /* A border is split by its side. A refused split leaves everything as it was: one goes on. */
    printf("border half-edge 1: ");
    split(borzhanu_border(1));
    return 0;
}
