#include "loops.h"

#include "room.h"

#include <stdlib.h>

/* ---- every loop ---- */

/* The least number on the loop of b; 0: b doesn't come again. */
static uint32_t least_on_loop(const uint32_t *next, size_t k, uint32_t b) {
    uint32_t least = b, at = b;
    for (size_t count = 1; count <= k; count++) {
        at = next[at - 1];
        if (at == 0)
            return 0;
        if (at == b)
            return least;
        least = at < least ? at : least;
    }
    return 0;
}

int loops_by_walks(const uint32_t *next, size_t k, uint32_t *loop) {
    uint32_t count = 0;
    for (uint32_t b = 1; b <= k; b++) {
        uint32_t least = least_on_loop(next, k, b);
        if (least == 0)
            return 0;
        loop[b - 1] = least == b ? ++count : loop[least - 1];
    }
    return 1;
}

/* ---- sets ---- */

/* Each is sent to one of them, and no two to the same. */
static int is_one_to_one(const uint32_t *next, size_t k) {
    unsigned char *taken = room_for(k, 1);
    int one_to_one = 1;
    for (size_t i = 0; i < k && one_to_one; i++) {
        one_to_one = next[i] != 0 && !taken[next[i] - 1];
        if (one_to_one)
            taken[next[i] - 1] = 1;
    }
    free(taken);
    return one_to_one;
}

/* A set goes by its least number. */
static uint32_t set_of(uint32_t *lower, uint32_t b) {
    while (lower[b - 1] != b) {
        lower[b - 1] = lower[lower[b - 1] - 1];
        b = lower[b - 1];
    }
    return b;
}

static void join(uint32_t *lower, uint32_t b, uint32_t c) {
    uint32_t of_b = set_of(lower, b), of_c = set_of(lower, c);
    if (of_b < of_c)
        lower[of_c - 1] = of_b;
    else
        lower[of_b - 1] = of_c;
}

int loops_by_sets(const uint32_t *next, size_t k, uint32_t *loop) {
    if (!is_one_to_one(next, k))
        return 0;
    uint32_t count = 0, *lower = room_for(k, sizeof *lower);
    for (uint32_t b = 1; b <= k; b++)
        lower[b - 1] = b;
    for (uint32_t b = 1; b <= k; b++)
        join(lower, b, next[b - 1]);
    for (uint32_t b = 1; b <= k; b++)
        loop[b - 1] = set_of(lower, b) == b ? ++count : loop[set_of(lower, b) - 1];
    free(lower);
    return 1;
}
