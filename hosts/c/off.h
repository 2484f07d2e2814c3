/* Reading OFF files, in form and not. */
#ifndef OFF_H
#define OFF_H

#include "meshes.h"

/* Answers, lists and refusals that were worked out by hand. */
void known_offs(struct dice *dice);

/* Texts made of lists, written in every way that the form leaves, are read as these lists, into buffers of every length
   about the one needed. Some lists are built. */
void offs_of_lists(struct dice *dice);

/* Faces with any number of corners: 17 names the first that has neither 3 nor 4. */
void faces_of_offs(struct dice *dice);

/* Every item of a text written as it mustn't be, one at a time: 16 names its line, also where a face is unfit. Then the
   last item missing, and one too many. */
void bad_items_of_offs(struct dice *dice);

/* Every byte alone and at every place of a text, and the text from every place on and up to it. */
void bytes_of_offs(struct dice *dice);

/* Texts with slips of every kind, one or several. */
void damaged_offs(struct dice *dice);

/* Counts at their largest and one past it, long items, comments and blanks, in linear time. */
void largest_offs(struct dice *dice);

/* Lines that are too many for the place of a refusal, and lengths past 32 bits. */
void far_offs(struct dice *dice);

#endif
