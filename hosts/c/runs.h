/* Edits one after another in the same buffers, each held against a copy of the list that was edited by means of the
   queries. */
#ifndef RUNS_H
#define RUNS_H

#include "edits.h"

/* A mesh in buffers that may hold more, on its way through edits; k and the number of edges as last answered; the number
   of its shape when the run began. */
struct run {
    struct call call;
    uint32_t size[SIZE_LENGTH], k, edges;
    int64_t number;
};

/* A list that building accepts, with its tables, in buffers with so much room and B2e with some; each may be longer
   still. The run stays where it is in memory until it is dropped. */
void start_run(struct run *run, const struct list *list, struct room room, struct dice *dice);
void drop_run(struct run *run);

/* Each makes the edit with this code. Where it answers, the buffers hold what it left, which is what it must be; a
   split and a contraction change k and the number of edges as they must. Answered or refused, the number of the shape is
   the one with which the run began. */
struct answer swap_in_run(struct run *run, uint32_t code);
struct answer split_in_run(struct run *run, uint32_t code);
struct answer contract_in_run(struct run *run, uint32_t code);

/* Mostly a side of a triangle. */
uint32_t any_code(const struct run *run, struct dice *dice);

/* One of the edits with such a code: as many contractions as splits, so that the mesh comes and goes. */
struct answer edit_any(struct run *run, struct dice *dice);

#endif
