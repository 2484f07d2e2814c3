#include "room.h"

#include <stdio.h>
#include <stdlib.h>

void *room_for(size_t count, size_t size) {
    void *p = calloc(count + 1, size);
    if (p == NULL) {
        fprintf(stderr, "out of memory\n");
        exit(2);
    }
    return p;
}
