/* Elements that meet otherwise than at one corner or one edge, which is refusal 18, and elements that nearly do. */
#ifndef MEETING_H
#define MEETING_H

#include "meshes.h"

/* Shapes whose answer is known; then any of them, together, disguised and damaged. */
void elements_that_clash(struct dice *dice);

/* Building and recovery take time linear in m, however many elements are about a vertex or share a diagonal, and
   wherever in the list two of them clash. */
void time_of_meeting(struct dice *dice);

#endif
