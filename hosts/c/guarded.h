/* Memory between two pages that fault when touched. */
#ifndef GUARDED_H
#define GUARDED_H

#include <stddef.h>
#include <stdint.h>

struct guarded {
    unsigned char *first; /* the first byte after the page before */
    size_t bytes;         /* whole pages */
};

/* A buffer touches the page after it with its end, or the page before it with its start. An empty one is at the page
   after it, or null: either way it faults when touched. */
enum placement { END_AT_GUARD, START_AT_GUARD };

struct guarded guarded_memory(size_t entries);
/* Every page of it faults when touched. */
uint32_t *closed_memory(size_t entries);
/* Every page of it but the first, which is zeros. */
uint32_t *closed_but_for_a_page(size_t entries);
/* One byte over and over, to be read only. However long it is, it takes little memory: its pages are the same ones. */
const unsigned char *run_of_bytes(unsigned char byte, size_t bytes);
uint32_t *placed(const struct guarded *memory, size_t len, enum placement placement);
/* The same for so many bytes, of which each may stand anywhere. */
unsigned char *placed_bytes(const struct guarded *memory, size_t bytes, enum placement placement);

#endif
