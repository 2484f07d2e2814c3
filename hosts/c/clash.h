/* Two elements that meet otherwise than at one corner or one edge, looked for in two ways. Rows are fit, and no three
   sides join the same two vertices. */
#ifndef CLASH_H
#define CLASH_H

#include <stddef.h>
#include <stdint.h>

/* the numbers of two elements; 0, 0: there are no such two */
struct clash {
    uint32_t lower, higher;
};

/* The least such two, lower number first: every two elements are held up to the rule. */
struct clash clash_by_pairs(const uint32_t *rows, size_t m);

/* The same, in time linear in m: elements that share two corners are brought together by sorting. */
struct clash clash_by_sorting(const uint32_t *rows, size_t m);

#endif
