/* Finds the edges of a stiffened housing at which three plates or more meet: a panel of four plates, and a rib of two
   that stands on its middle seam.

       7 --- 8 --- 9
       |  3  |  4  |
       4 --- 5 --- 6      the rib's upper vertices are 10, 11 and 12, above 4, 5 and 6
       |  1  |  2  |
       1 --- 2 --- 3
*/
#include "borzhanu.h"

#include <stdio.h>

enum { N = 12, M = 6 };

static const uint32_t elements[4 * M] = {1, 2, 5, 4, 2, 3, 6,  5,  4, 5, 8,  7,
                                         5, 6, 9, 8, 4, 5, 11, 10, 5, 6, 12, 11};

static int refused(const char *call, uint64_t returned) {
    uint32_t refusal = borzhanu_refusal(returned);
    if (refusal == 0)
        return 0;
    printf("%s: refusal %u at %u,%u: %s\n", call, refusal, borzhanu_first(returned), borzhanu_second(returned),
           borzhanu_refusal_text(refusal));
    return 1;
}

static uint32_t sides_of(uint32_t f) {
    return elements[4 * f - 1] == 0 ? 3 : 4;
}

static uint32_t count_plates(const uint32_t *siblings, uint32_t side) {
    uint32_t at = side, count = 0;
    do {
        count++;
        at = borzhanu_sibling(siblings, 4 * M, at);
    } while (at != side);
    return count;
}

static void print_edge(const uint32_t *siblings, uint32_t side) {
    uint32_t f = borzhanu_element_of(side), i = borzhanu_number_of(side), at = side;
    const uint32_t *row = elements + 4 * (f - 1);
    printf("edge %u to %u: plates", row[i - 1], row[i % sides_of(f)]);
    do {
        printf(" %u", borzhanu_element_of(at));
        at = borzhanu_sibling(siblings, 4 * M, at);
    } while (at != side);
    printf("\n");
}

int main(void) {
    uint32_t v2e[N], e2e[4 * M], b2e[N], siblings[4 * M], work[N + 16 * M];

    /* Building refuses such a housing, and writes nothing. */
    refused("build", borzhanu_build(N, elements, 4 * M, v2e, N, e2e, 4 * M, b2e, N, work, N + 16 * M));

    if (refused("siblings", borzhanu_siblings(N, elements, 4 * M, v2e, N, siblings, 4 * M, work, N + 16 * M)))
        return 1;
    for (uint32_t f = 1; f <= M; f++)
        for (uint32_t i = 1; i <= sides_of(f); i++) {
            /* The last side of an edge, and no other, has a sibling that isn't higher: the first. So each edge comes
               once. */
            uint32_t side = borzhanu_side(f, i), first = borzhanu_sibling(siblings, 4 * M, side);
            if (first <= side && count_plates(siblings, first) >= 3)
                print_edge(siblings, first);
        }
    return 0;
}
