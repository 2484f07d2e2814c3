/* Pairs of numbers up to 1,000,000, each with up to 23 bits beside it, as one number; and their order. */
#ifndef SORTING_H
#define SORTING_H

#include <stddef.h>
#include <stdint.h>

uint64_t pair_of(uint32_t first, uint32_t second, uint32_t beside);
uint32_t first_of(uint64_t pair);
uint32_t second_of(uint64_t pair);
uint32_t beside_of(uint64_t pair);
int same_pair(uint64_t a, uint64_t b);

/* By the first number, then by the second. What is beside them rises as they are given, so that equal pairs come in
   that order; the time is linear in their count. */
void sort_pairs(uint64_t *pairs, size_t count);

/* How many, from the first on, are the same pair. `most` is how many there are. */
size_t run_of_pairs(const uint64_t *pairs, size_t most);

#endif
