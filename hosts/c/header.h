/* What include/borzhanu.h says by itself: numbers by their names, codes taken apart, refusals in words, the sibling
   map read, and queries of a borzhanu_mesh. */
#ifndef HEADER_H
#define HEADER_H

#include "meshes.h"

/* Compares every name with its number and every code with one counted up to; each refusal number has a sentence of its
   own. A mismatch is printed and ends the program. */
void check_header(void);

/* Compares every query of a borzhanu_mesh with the call that it stands for, told 0, what looking gave, and other
   numbers. */
void mesh_functions(struct dice *dice);

#endif
