/* Reading an OFF file, once more, by other means than the kernel's: the whole text is copied with its comments blanked
   and taken apart into items, and then the items are held to the form by their numbers. */
#ifndef OFF_READING_H
#define OFF_READING_H

#include "reference.h"

/* of a text shorter than 2^28 bytes */
struct answer reference_read_off(struct text text, struct slice elements);

#endif
