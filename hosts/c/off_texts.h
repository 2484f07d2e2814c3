/* Texts to try the reading of OFF files on: in form, and with slips. */
#ifndef OFF_TEXTS_H
#define OFF_TEXTS_H

#include "meshes.h"
#include "reference.h"

/* A text that grows; while it does, `line` is the one on which it ends. */
struct bytes {
    uint8_t *at;
    size_t len, room;
    uint32_t line;
};

struct bytes no_bytes(void);
void drop_bytes(struct bytes *bytes);
struct text text_of(const struct bytes *bytes);
void add_byte(struct bytes *bytes, uint8_t byte);
/* The words so many times. */
void add_words(struct bytes *bytes, const char *words, size_t times);

/* The items of a text before anything is put between them. */
struct draft {
    size_t count, room;
    char **items;
};

/* Items that are in form. The list is in them; what else they say, and how numbers are written, is chosen at random. */
struct draft draft_of(const struct list *list, struct dice *dice);
/* So many vertices, and faces with so many corners each. */
struct draft draft_of_faces(uint32_t n, size_t m, const uint32_t *corners, struct dice *dice);
void drop_draft(struct draft *draft);

/* Where the items of the faces begin. */
size_t start_of_faces(uint32_t n);
/* An item put before the one at this place, or after the last. */
void insert_item(struct draft *draft, size_t at, const char *item);
void take_item_out(struct draft *draft, size_t at);

/* Items that are never in form where the word, a whole number or a decimal number belongs. Null after the last. */
extern const char *const no_words[], *const no_wholes[], *const no_decimals[];

/* The text of the items, with blanks and comments of every kind. `lines`, where not null, gets the line of each item
   and, after these, of the text's end. */
struct bytes joined(const struct draft *draft, uint32_t *lines, struct dice *dice);

/* One slip: an item gone, twice, moved, written in another way, or a number that is one more or less. */
void damage_items(struct draft *draft, struct dice *dice);
/* One byte gone, more, or another, or the text cut off. */
void damage_bytes(struct bytes *bytes, struct dice *dice);

#endif
