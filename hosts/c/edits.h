/* What comparisons of edits have in common: calls in buffers of their own, what they leave, and how often each refusal
   came. */
#ifndef EDITS_H
#define EDITS_H

#include "asking.h"

/* What an edit is lent, but for n and m; points last, since not every edit is lent them. */
enum { MOST_LENT = 6 };
extern const enum role lent[MOST_LENT];
/* How many of these the edit is lent. */
int lent_to(const struct call *call);

/* An edit with buffers just long enough for the list as it is, but for B2e, which has as many entries as told. Tables
   and work are noise, and there are no points. `size` belongs to the caller. */
struct call edit_of(const struct exported *exported, const struct list *list, size_t b2e_len, uint32_t *size,
                    uint32_t code);

/* How many vertices and elements more the buffers of an edit can hold. */
struct room {
    uint32_t vertices, elements;
};

/* An edit that is lent points, in buffers of the call's own. Tables and work are noise, points are of all kinds. */
struct call edit_with_points(const struct exported *exported, const struct list *list, struct room room, size_t b2e_len,
                             uint32_t *size, uint32_t code, struct dice *dice);
/* The length of a role's buffer for n vertices and m elements, in numbers; B2e isn't among these. */
size_t length_for(enum role role, size_t columns, size_t n, size_t m);

/* The buffers of a call become copies of its own. */
void own_buffers(struct call *call);
void drop_buffers(struct call *call);

/* A buffer of the call's own cut, or longer by noise; `change` is in numbers, so two entries each in points. */
void change_length(struct slice *given, enum role role, long change);
/* A buffer of the call's own brought to so many numbers. */
void set_length(struct slice *given, enum role role, size_t numbers);
/* Each buffer of the call's own longer or not. */
void lengthen_any(struct call *call, struct dice *dice);
/* Each buffer without an entry. */
struct call emptied(struct call call);

struct list list_of(const struct mesh *t);
struct list list_of_rows(uint32_t n, uint32_t m, const uint32_t (*rows)[4]);

/* List and tables that an edit left, without what stands past them. */
struct mesh mesh_left(const struct slice *results, uint32_t k);

int is_answer(struct answer a, struct answer b);

/* Prints what is wrong where it isn't in one call, and ends the program. */
void mismatch(const char *what);
/* An answer that isn't as it was worked out by hand. */
void fail_known(const char *name);

/* What an edit left is this list with the tables that building gives of it, and the list comes back from them. */
void check_left(const struct mesh *left, const struct list *edited);

/* Counts how often each refusal came. A family in which one of these came fewer times than that doesn't try it. */
struct answer counted(struct answer answer);
void check_seen(const uint32_t *numbers, size_t count, unsigned long least);

/* Lists that building refuses, each for another cause, and what it says; and codes to be tried on them. */
enum { REFUSED_LISTS = 8, REFUSED_ROWS = 3, SOME_CODES = 16 };
extern const struct refused_list {
    const char *name;
    uint32_t n, m, rows[REFUSED_ROWS][4];
    struct answer answer;
} refused_lists[REFUSED_LISTS];
extern const uint32_t some_codes[SOME_CODES];

/* What an edit that is lent points refuses before its own causes come up, in buffers with room and without: these
   lists, whatever the code, and each cause of 11 and of 15. */
void known_refusals(const struct exported *exported, struct dice *dice);

/* One past the codes that a list could have. */
uint32_t one_past_codes(const struct list *list);

/* Small lists, sound and damaged, each with every code that it could have and with codes far above. */
void try_every_code(void (*try_code)(const struct list *list, uint32_t code, struct dice *dice), struct dice *dice);

/* So many edits in a run on each of seven housings of triangles, and of triangles and quadrilaterals: closed, with a
   border, with two, and with spare vertices. The run drops its list. */
void run_on_housings(uint32_t size, int edits, void (*run)(struct list list, int edits, struct dice *dice),
                     struct dice *dice);

/* A side between two triangles, where one is met soon. The columns of the mesh are told. */
uint32_t any_inner_side(const struct mesh *t, struct dice *dice);

/* Each buffer of the call longer or not, in every combination: the answer stays the same. */
void try_longer(const struct call *call, struct dice *dice);
/* Every two buffers shorter or longer by some numbers. n and m may be others too. */
void try_other_lengths(const struct call *call, struct dice *dice);
/* Each buffer but the work buffer in 2^32 numbers: no length is cut to 32 bits. */
void try_far_lengths(const struct call *call);
/* Each buffer emptied by itself, and all of them: one of the placements then hands over null. With other codes too. */
void try_empty_buffers(struct call call);

/* The buffers of the call, which is of a small list, and none, with any n and m: 1 where one of them is past its largest,
   else 2. */
void check_sizes(const struct call *call);

#endif
