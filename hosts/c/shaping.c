#include "shaping.h"

#include "room.h"
#include "sorting.h"

#include <stdlib.h>

/* Reads row by row. The pairs have the lesser vertex first and nothing beside them. */
static size_t read_pairs(struct slice elements, uint64_t *pairs) {
    size_t count = 0;
    for (const uint32_t *row = elements.at; row != elements.at + elements.len; row += 4) {
        uint32_t last = row[row[3] == 0 ? 2 : 3];
        for (int i = 0; i < 4 && row[i] != 0; last = row[i++])
            pairs[count++] = last < row[i] ? pair_of(last, row[i], 0) : pair_of(row[i], last, 0);
    }
    return count;
}

static size_t count_edges(struct slice elements) {
    uint64_t *pairs = room_for(elements.len, sizeof *pairs);
    size_t sides = elements.len == 0 ? 0 : read_pairs(elements, pairs), edges = 0;
    sort_pairs(pairs, sides);
    for (size_t i = 0; i < sides; i++)
        edges += i == 0 || pairs[i] != pairs[i - 1];
    free(pairs);
    return edges;
}

int64_t counted_shape(uint32_t n, struct slice elements) {
    return (int64_t)n - (int64_t)count_edges(elements) + (int64_t)(elements.len / 4);
}

struct answer gives_signed(int64_t number) {
    const uint32_t each = 1 << 28;
    uint64_t bits = (uint64_t)number;
    return (struct answer){0, (uint32_t)(bits / each) % each, (uint32_t)bits % each};
}

/* The list judged by building, with room for all tables: where sizes or work are unfit, these are never touched. */
struct answer reference_shape(const struct mesh *mesh, struct slice work) {
    size_t e2e_len = columns_of(mesh->elements) * (mesh->elements.len / 4), largest = 1000000;
    int is_large = mesh->n > largest || mesh->elements.len > 4 * largest;
    struct mesh built = {.n = mesh->n, .elements = mesh->elements, .v2e = {NULL, mesh->n}, .e2e = {NULL, e2e_len},
                         .b2e = {NULL, mesh->elements.len}};
    if (!is_large) {
        built.v2e.at = room_for(built.v2e.len, sizeof(uint32_t));
        built.e2e.at = room_for(built.e2e.len, sizeof(uint32_t));
        built.b2e.at = room_for(built.b2e.len, sizeof(uint32_t));
    }
    struct answer answer = reference_build(&built, work);
    free(built.v2e.at);
    free(built.e2e.at);
    free(built.b2e.at);
    return answer.refusal != 0 ? answer : gives_signed(counted_shape(mesh->n, mesh->elements));
}
