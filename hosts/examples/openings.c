/* Checks the openings of a duct by their rims. The duct is of square section, open at its inlet and at a branch, and
   closed at its end by plate 15. Its walls unrolled, so that the right edge is the left one again:

       17 -- 18 -- 19 -- 20 -- 17
        | 11  | 12  | 13  | 14  |
       13 -- 14 -- 15 -- 16 -- 13
        |     |  8  |  9  | 10  |
        9    10 -- 11 -- 12 --- 9      the branch is where plates 16 and 17 would be
        |     |  5  |  6  |  7  |
        5 --- 6 --- 7 --- 8 --- 5
        |  1  |  2  |  3  |  4  |
        1 --- 2 --- 3 --- 4 --- 1      inlet
*/
#include "borzhanu.h"

#include <stdio.h>

enum { N = 20, M = 17, OPENINGS = 2 };

static const uint32_t plates[M][4] = {
    {1, 2, 6, 5},     {2, 3, 7, 6},     {3, 4, 8, 7},     {4, 1, 5, 8},     {6, 7, 11, 10},   {7, 8, 12, 11},
    {8, 5, 9, 12},    {10, 11, 15, 14}, {11, 12, 16, 15}, {12, 9, 13, 16},  {13, 14, 18, 17}, {14, 15, 19, 18},
    {15, 16, 20, 19}, {16, 13, 17, 20}, {17, 18, 19, 20}, {5, 6, 10, 9},    {9, 10, 14, 13},
};

/* What the drawing says: how many sides each opening has, and a vertex on its rim. */
static const struct opening {
    const char *name;
    uint32_t sides, vertex;
} drawing[OPENINGS] = {{"inlet", 4, 1}, {"branch", 6, 5}};

static int refused(uint64_t returned) {
    uint32_t refusal = borzhanu_refusal(returned);
    if (refusal == 0)
        return 0;
    printf("refusal %u at %u,%u: %s\n", refusal, borzhanu_first(returned), borzhanu_second(returned),
           borzhanu_refusal_text(refusal));
    return 1;
}

/* The hole at a vertex: that of the border half-edge which leaves it. 0: the vertex is on no rim. */
static uint32_t hole_at(const borzhanu_mesh *mesh, const uint32_t *hole, uint32_t v) {
    uint32_t b = borzhanu_border_of(mesh->v2e[v - 1]);
    return b == 0 ? 0 : hole[b - 1];
}

/* The sides of a rim and its vertices, in the order of its loop. */
static int print_rim(const borzhanu_mesh *mesh, const uint32_t *hole, uint32_t h, uint32_t sides) {
    uint32_t b = 1, loop[N];
    while (hole[b - 1] != h)
        b++;
    if (refused(borzhanu_mesh_border_loop(mesh, b, loop, N)))
        return 0;
    printf("  %u sides, vertices", sides);
    for (uint32_t i = 0; i < sides; i++) {
        uint64_t origin = borzhanu_mesh_origin(mesh, borzhanu_border(loop[i]));
        if (refused(origin))
            return 0;
        printf(" %u", borzhanu_first(origin));
    }
    return 1;
}

/* What the drawing says of a hole: the openings whose vertex is on its rim. */
static void print_names(const borzhanu_mesh *mesh, const uint32_t *hole, uint32_t h, uint32_t sides) {
    int named = 0;
    for (int i = 0; i < OPENINGS; i++) {
        if (hole_at(mesh, hole, drawing[i].vertex) != h)
            continue;
        printf("%s%s", named ? "; " : ": ", drawing[i].name);
        if (sides != drawing[i].sides)
            printf(", %u sides on the drawing", drawing[i].sides);
        named = 1;
    }
    printf("%s\n", named ? "" : ": not on the drawing");
}

/* Checks the first m plates, but for one that is left out; 0: none is. */
static int check(const char *model, uint32_t m, uint32_t left_out) {
    uint32_t rows[4 * M], v2e[N], e2e[4 * M], b2e[N], hole[N], lengths[N], work[N + 16 * M];
    uint32_t *row = rows;
    for (uint32_t f = 1; f <= m; f++)
        for (int i = 0; f != left_out && i < 4; i++)
            *row++ = plates[f - 1][i];
    size_t len = (size_t)(row - rows);

    uint64_t built = borzhanu_build(N, rows, len, v2e, N, e2e, len, b2e, N, work, N + 16 * M);
    if (refused(built))
        return 0;
    /* No plate is a triangle, so E2e is in four columns, as long as the list. */
    const borzhanu_mesh mesh = {.n = N, .columns = 4, .elements = rows, .elements_len = len, .v2e = v2e, .v2e_len = N,
                                .e2e = e2e, .e2e_len = len, .b2e = b2e, .b2e_len = borzhanu_first(built)};
    /* Both outputs need k entries, which are at most N, as in B2e. */
    uint64_t holes = borzhanu_mesh_holes(&mesh, hole, N, lengths, N, work, N + 16 * M);
    if (refused(holes))
        return 0;

    printf("openings %s: %u\n", model, borzhanu_first(holes));
    for (uint32_t h = 1; h <= borzhanu_first(holes); h++) {
        if (!print_rim(&mesh, hole, h, lengths[h - 1]))
            return 0;
        print_names(&mesh, hole, h, lengths[h - 1]);
    }
    for (int i = 0; i < OPENINGS; i++)
        if (hole_at(&mesh, hole, drawing[i].vertex) == 0)
            printf("  missing: %s\n", drawing[i].name);
    return 1;
}

int main(void) {
    int answered = check("as drawn", 15, 0) && check("without plate 9", 15, 9) && check("without plate 8", 15, 8) &&
                   check("without plate 1", 15, 1) && check("with plates 16 and 17", 17, 0);
    return answered ? 0 : 1;
}
