/* Builds the tables of a small mesh, prints them, and walks about its inner vertex. */
#include "borzhanu.h"

#include <stdio.h>

enum { N = 9, M = 8 };

static void print_half_edge(uint32_t code) {
    if (borzhanu_is_border_code(code))
        printf(" <%u,0>", borzhanu_border_of(code));
    else
        printf(" <%u,%u>", borzhanu_element_of(code), borzhanu_number_of(code));
}

static void print_half_edges(const char *name, const uint32_t *codes, uint32_t count) {
    printf("%s", name);
    for (uint32_t i = 0; i < count; i++)
        print_half_edge(codes[i]);
    printf("\n");
}

/* Prints a refusal, where a call returned one. */
static int refused(uint64_t returned) {
    uint32_t refusal = borzhanu_refusal(returned);
    if (refusal == 0)
        return 0;
    printf("refusal %u at %u,%u: %s\n", refusal, borzhanu_first(returned), borzhanu_second(returned),
           borzhanu_refusal_text(refusal));
    return 1;
}

int main(void) {
    const uint32_t elements[4 * M] = {1, 4, 5, 0, 1, 5, 2, 0, 2, 5, 3, 0, 3, 5, 6, 0,
                                      6, 5, 9, 0, 8, 9, 5, 0, 7, 8, 5, 0, 5, 4, 7, 0};
    uint32_t v2e[N], e2e[4 * M], b2e[N], work[N + 16 * M];

    /* The list is looked at once. It has no quadrilateral, so E2e takes three entries for each element;
       the buffer would hold four. */
    uint64_t looked = borzhanu_columns(N, elements, 4 * M);
    if (refused(looked))
        return 1;
    uint32_t columns = borzhanu_first(looked);
    size_t e2e_len = borzhanu_e2e_length(columns, M);

    uint64_t built = borzhanu_build(N, elements, 4 * M, v2e, N, e2e, e2e_len, b2e, N, work, N + 16 * M);
    if (refused(built))
        return 1;
    uint32_t k = borzhanu_first(built), edges = borzhanu_second(built);
    printf("%u edges, %u on the border\n", edges, k);
    print_half_edges("V2e", v2e, N);
    for (uint32_t f = 0; f < M; f++)
        print_half_edges("E2e", e2e + columns * f, elements[4 * f + 3] == 0 ? 3 : 4);
    print_half_edges("B2e", b2e, k);

    /* Every query goes by these columns and doesn't look at the whole list again. B2e is cut to k. */
    const borzhanu_mesh mesh = {.n = N, .columns = columns, .elements = elements, .elements_len = 4 * M, .v2e = v2e,
                                .v2e_len = N, .e2e = e2e, .e2e_len = e2e_len, .b2e = b2e, .b2e_len = k};
    borzhanu_walker walker;
    if (refused(borzhanu_mesh_walker_start(&mesh, 5, &walker)))
        return 1;
    printf("elements about vertex 5:");
    for (;;) {
        uint64_t step = borzhanu_mesh_walker_step(&mesh, &walker);
        if (refused(step))
            return 1;
        if (borzhanu_first(step) == 0)
            break;
        printf(" %u", borzhanu_first(step));
    }
    printf("\n");
    return 0;
}
