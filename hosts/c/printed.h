/* The worked cases, held up to the kernel and to the reference alike. */
#ifndef PRINTED_H
#define PRINTED_H

#include "meshes.h"

void printed_cases(struct dice *dice);

#endif
