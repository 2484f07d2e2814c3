#include "rims.h"

#include "borzhanu.h"
#include "calls.h"
#include "room.h"

#include <stdlib.h>

/* Each border half-edge has one of the holes, and each hole as many of them as its length says. */
static void check_lengths(struct slice hole, size_t k, struct slice lengths, uint32_t holes) {
    uint32_t *count = room_for(holes, sizeof *count);
    for (size_t i = 0; i < k; i++) {
        if (hole.at[i] < 1 || hole.at[i] > holes)
            fail("a border half-edge has a hole that isn't there");
        count[hole.at[i] - 1]++;
    }
    for (uint32_t h = 0; h < holes; h++)
        if (lengths.at[h] != count[h])
            fail("a hole's length isn't how many border half-edges have it");
    free(count);
}

/* The loop lists as many as have the hole of b, each of them with that hole and once: `met` is b where one has come. */
static void check_loop(const borzhanu_mesh *mesh, uint32_t b, struct slice hole, uint32_t length, uint32_t *loop,
                       uint32_t *met) {
    uint64_t returned = borzhanu_mesh_border_loop(mesh, b, loop, mesh->b2e_len);
    progress.calls++;
    if (borzhanu_refusal(returned) != 0 || borzhanu_first(returned) != length)
        fail("a border loop hasn't the length of its hole");
    for (uint32_t i = 0; i < length; i++) {
        if (hole.at[loop[i] - 1] != hole.at[b - 1])
            fail("a border loop lists one of another hole");
        if (met[loop[i] - 1] == b)
            fail("a border loop lists one twice");
        met[loop[i] - 1] = b;
    }
}

void check_rims(const struct mesh *t, uint32_t holes, struct slice hole, struct slice lengths) {
    enum { FEW = 40 };
    size_t k = t->b2e.len;
    const borzhanu_mesh mesh = {.n = t->n, .columns = t->columns == 0 ? columns_of(t->elements) : t->columns,
                                .elements = t->elements.at, .elements_len = t->elements.len, .v2e = t->v2e.at,
                                .v2e_len = t->v2e.len, .e2e = t->e2e.at, .e2e_len = t->e2e.len, .b2e = t->b2e.at,
                                .b2e_len = k};
    uint32_t *loop = room_for(k, sizeof *loop), *met = room_for(k, sizeof *met), last = 0;
    check_lengths(hole, k, lengths, holes);
    for (uint32_t b = 1; b <= k; b++) {
        uint32_t h = hole.at[b - 1];
        if (h > last + 1)
            fail("holes aren't numbered by their least border half-edges");
        if (h > last || k <= FEW)
            check_loop(&mesh, b, hole, lengths.at[h - 1], loop, met);
        last = h > last ? h : last;
    }
    free(loop);
    free(met);
}
