/* Checks imported housings by one number, vertices - edges + plates, for which no tables are needed. Of a housing of
   one piece it is 2, less 1 for each opening, the outer rim of a plate included, less 2 for each handle, and 1 more for
   each vertex that no plate uses. So a drawing says what it must be. The plate with two cable holes:

       6 ------------ 5 ------------ 4
       | \    3    /  |  \    7    / |
       |  10 ---- 9   |  14 --- 13   |
       | 4 |      | 2 | 8 |      | 6 |
       |   7 ---- 8   |  11 --- 12   |
       | /    1    \  |  /    5    \ |
       1 ------------ 2 ------------ 3
*/
#include "borzhanu.h"

#include <stdio.h>

enum { MOST = 16, WORK = MOST + 16 * MOST }; /* of vertices and of plates */

static uint32_t work[WORK];

/* A housing of one piece, and how many openings and handles are drawn. */
struct housing {
    const char *name;
    uint32_t n, m, plates[MOST][4];
    int openings, handles;
};

static const struct housing flat_plate = {"flat plate", 4, 2, {{1, 2, 3, 0}, {1, 3, 4, 0}}, 1, 0};

static const struct housing one_cable_hole = {
    "plate with a cable hole", 8, 4, {{1, 2, 6, 5}, {2, 3, 7, 6}, {3, 4, 8, 7}, {4, 1, 5, 8}}, 2, 0};

static const struct housing two_cable_holes = {
    "plate with two cable holes", 14, 8,
    {{1, 2, 8, 7}, {2, 5, 9, 8}, {5, 6, 10, 9}, {6, 1, 7, 10},
     {2, 3, 12, 11}, {3, 4, 13, 12}, {4, 5, 14, 13}, {5, 2, 11, 14}}, 3, 0};

/* Its sections, of four vertices each, are at 1, at 5 and at 9. */
static const struct housing open_duct = {
    "duct open at both ends", 12, 8,
    {{1, 2, 6, 5}, {2, 3, 7, 6}, {3, 4, 8, 7}, {4, 1, 5, 8},
     {5, 6, 10, 9}, {6, 7, 11, 10}, {7, 8, 12, 11}, {8, 5, 9, 12}}, 2, 0};

/* Plate 6 is its lid. */
static const struct housing closed_box = {
    "closed box", 8, 6,
    {{1, 2, 6, 5}, {2, 3, 7, 6}, {3, 4, 8, 7}, {4, 1, 5, 8}, {1, 4, 3, 2}, {5, 6, 7, 8}}, 0, 0};

/* Longer than the open duct by a section at 13, from which it goes back to the one at 1. */
static const struct housing ring_duct = {
    "ring duct", 16, 16,
    {{1, 2, 6, 5}, {2, 3, 7, 6}, {3, 4, 8, 7}, {4, 1, 5, 8},
     {5, 6, 10, 9}, {6, 7, 11, 10}, {7, 8, 12, 11}, {8, 5, 9, 12},
     {9, 10, 14, 13}, {10, 11, 15, 14}, {11, 12, 16, 15}, {12, 9, 13, 16},
     {13, 14, 2, 1}, {14, 15, 3, 2}, {15, 16, 4, 3}, {16, 13, 1, 4}}, 0, 1};

static int refused(uint64_t returned) {
    uint32_t refusal = borzhanu_refusal(returned);
    if (refusal == 0)
        return 0;
    printf("refusal %u at %u,%u: %s\n", refusal, borzhanu_first(returned), borzhanu_second(returned),
           borzhanu_refusal_text(refusal));
    return 1;
}

/* What is counted of a mesh of one piece. */
struct count {
    uint32_t edges;
    int openings, spare;
};

/* Edges by building, openings by their rims, and spare vertices by their V2e entry. */
static int counted(uint32_t n, uint32_t m, const uint32_t *plates, struct count *count) {
    uint32_t v2e[MOST], e2e[4 * MOST], b2e[MOST], hole[MOST], lengths[MOST];
    borzhanu_mesh mesh = {.n = n, .elements = plates, .elements_len = 4 * m, .v2e = v2e, .v2e_len = n, .e2e = e2e,
                          .b2e = b2e};
    if (refused(borzhanu_mesh_look(&mesh)))
        return 0;
    mesh.e2e_len = borzhanu_e2e_length(mesh.columns, m);
    uint64_t built = borzhanu_build(n, plates, 4 * m, v2e, n, e2e, mesh.e2e_len, b2e, MOST, work, WORK);
    if (refused(built))
        return 0;
    mesh.b2e_len = borzhanu_first(built);
    uint64_t holes = borzhanu_mesh_holes(&mesh, hole, MOST, lengths, MOST, work, WORK);
    if (refused(holes))
        return 0;
    *count = (struct count){borzhanu_second(built), (int)borzhanu_first(holes), 0};
    for (uint32_t v = 1; v <= n; v++)
        count->spare += v2e[v - 1] == 0;
    return 1;
}

/* Prints what the number tells of a mesh of this housing, and what is drawn where that is something else. A missing plate
   and a spare vertex cancel in the number, so openings, handles and spare vertices are compared as well. */
static int check(const char *name, uint32_t n, uint32_t m, const uint32_t *plates, const struct housing *drawn) {
    struct count count;
    uint64_t shape = borzhanu_shape(n, plates, 4 * m, work, WORK);
    if (refused(shape) || !counted(n, m, plates, &count))
        return 0;
    int number = (int)borzhanu_signed(shape), drawn_number = 2 - drawn->openings - 2 * drawn->handles;
    int handles = (2 - count.openings + count.spare - number) / 2;
    printf("%s: %u vertices, %u edges, %u plates, number %d: openings %d, handles %d, spare vertices %d\n", name, n,
           count.edges, m, number, count.openings, handles, count.spare);
    if (number != drawn_number || count.openings != drawn->openings || handles != drawn->handles || count.spare != 0)
        printf("  drawn: number %d, openings %d, handles %d\n", drawn_number, drawn->openings, drawn->handles);
    return 1;
}

static int check_as_drawn(const struct housing *housing) {
    return check(housing->name, housing->n, housing->m, housing->plates[0], housing);
}

/* The flat plate refined at its diagonal, from 3 to 1. */
static int check_split(void) {
    enum { N = 5, M = 4 };
    uint32_t size[2] = {4, 2}, plates[4 * M] = {1, 2, 3, 0, 1, 3, 4, 0}, v2e[N], e2e[3 * M], b2e[N];
    double points[3 * N] = {0, 0, 0, 80, 0, 0, 80, 60, 0, 0, 60, 0};
    uint64_t split = borzhanu_split(size, plates, 4 * M, v2e, N, e2e, 3 * M, b2e, N, points, 3 * N, work, WORK,
                                    borzhanu_side(1, 3));
    return !refused(split) && check("flat plate, diagonal split", size[0], size[1], plates, &flat_plate);
}

int main(void) {
    const uint32_t *box = closed_box.plates[0];
    int answered = check_as_drawn(&flat_plate) && check_as_drawn(&one_cable_hole) && check_as_drawn(&two_cable_holes) &&
                   check_as_drawn(&open_duct) && check_as_drawn(&closed_box) && check_as_drawn(&ring_duct) &&
                   check("closed box without plate 6", 8, 5, box, &closed_box) &&
                   check("closed box with vertex 9", 9, 6, box, &closed_box) &&
                   check("closed box without plate 6, with vertex 9", 9, 5, box, &closed_box) && check_split();
    return answered ? 0 : 1;
}
