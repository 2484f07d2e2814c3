/* Tables to ask about, and what is asked of them and of lists. A mesh here owns its buffers. */
#ifndef ASKING_H
#define ASKING_H

#include "calls.h"
#include "meshes.h"

/* Fills the noise that buffers hold before a call writes them: numbers of all sizes, so that some could be codes of the
   list at hand. */
void prepare_noise(struct dice *dice);
struct slice noise_of(enum role role, size_t len);

struct slice copied(struct slice from);
struct mesh copied_tables(const struct mesh *t);
void drop_tables(struct mesh *t);

/* The first `len` entries of a buffer, and noise where it has no more. */
struct slice resized(enum role role, struct slice from, size_t len);
/* E2e brought to so many columns row by row: a fourth entry is left out, or is 0. */
void bring_to_columns(struct mesh *t, uint32_t columns);
/* 4 for a list in three columns, 3 for one in four */
uint32_t other_columns(const struct mesh *t);

/* Calls with buffers of the right lengths, those that are written full of noise. Recovery is told the m of the element
   list's length, a query the columns of the mesh. */
struct call build_of(const struct list *list, size_t b2e_len);
struct call siblings_of(const struct list *list);
struct call shape_of(const struct list *list);
struct call look_at(const struct list *list);
struct call reading_of(struct text text, size_t elements_len);
struct call recovery_of(const struct mesh *t);
struct call query_of(const struct exported *exported, const struct mesh *t, uint32_t number);
struct call holes_of(const struct mesh *t);

/* Every query of a half-edge; every query of a vertex; every query of everything. */
void ask_code(const struct mesh *t, uint32_t code);
void ask_vertex(const struct mesh *t, uint32_t v);
void ask_everything(const struct mesh *t);
/* A list with no room, and then with one entry too few, just enough and more than enough. */
void ask_list(const struct exported *exported, const struct mesh *t, uint32_t number);
/* Holes, a call of holes_of with any lengths; where there is an answer, the border loops are held up to it. */
struct answer compare_holes(const struct mesh *t, const struct call *call);
/* Holes with outputs just long enough, and then with each of them empty, one entry too short, long enough and longer,
   and with a work buffer too short. Returns the first answer. */
struct answer ask_holes(const struct mesh *t);
/* A walker from the start until the walk is over or refused, and a little further. */
void ask_walker(const struct mesh *t, uint32_t v);
/* All queries, each of something chosen at random. */
void ask_something(const struct mesh *t, struct dice *dice, int times);

/* The sibling map, with a work buffer of the least length and with a longer one by turns. `t` is what building gave, or
   null. */
void try_siblings(const struct list *list, const struct mesh *t);

/* The number of the shape, with a work buffer of the least length and with a longer one by turns. It is refused as
   building was, with the same place; where building answered, its number of edges makes the number. */
void try_shape(const struct list *list, struct answer of_building);

/* Builds with room in B2e; where accepted hands over the tables, which the caller drops. In any case the sibling map and
   the number of the shape are tried. */
int built(const struct list *list, struct mesh *t);
/* B2e of other lengths, and more work space than needed. */
void build_with_other_room(const struct list *list, size_t k);
void recover(const struct mesh *t);
/* Builds with room and without, and recovers the tables, which the caller drops. Of a list that only 18 refuses they
   are those that it would have otherwise, and no list comes back. Returns 0 where there are none. */
int tried_building(const struct list *list, struct mesh *t);
/* A vertex with elements whose V2e entry is put to 0: what is asked of it and of the border that ends there, and
   recovery. */
void try_zeroed(const struct mesh *t, uint32_t v);
/* A spare vertex whose V2e entry is put to another one: recovery. */
void recover_claimed(const struct mesh *t, uint32_t v, uint32_t entry);

/* Building, recovery and queries of a list, sound and damaged: of everything, or of something chosen at random. */
void try_small_list(const struct list *list, struct dice *dice);
void try_list(const struct list *list, struct dice *dice, int times);

#endif
