/* Memory, and how many entries an array has. */
#ifndef ROOM_H
#define ROOM_H

#include <stddef.h>

#define COUNT(array) (sizeof(array) / sizeof *(array))

/* Zeros, at least one. Where there is no memory, the program ends. */
void *room_for(size_t count, size_t size);

#endif
