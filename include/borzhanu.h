/*
 * borzhanu: from the element list of a shell mesh to its half-edge tables and back, and edits of both; and
 * from an OFF file to the element list.
 *
 * Vertices, elements and border half-edges are numbered from 1. An element is a row of four corner
 * numbers, the fourth 0 for a triangle; m is the number of elements. Side i of element f runs from
 * corner i (its origin) to the next corner (its destination), the last being followed by the first.
 * A half-edge travels as its code: 8 * f + i for a side, 8 * b for border half-edge b. Code 0 names
 * nothing. Vertices that belong to no element are accepted, however many: n may be 1,000,000 with one
 * element, or with none.
 *
 * Any two elements share no corner, one corner, or exactly two corners, which are then a side of both.
 * Where two meet otherwise building refuses the list: two triangles back to back, (1,2,3) and (1,3,2), or
 * two quadrilaterals with the same diagonal. Of lists in which elements meet in any way, three and more
 * at an edge too, borzhanu_siblings says which sides meet.
 *
 *   V2e  n entries            the border half-edge that leaves the vertex; for a vertex that is on no
 *                             border, its least side; 0 for a vertex that belongs to no element
 *   E2e  columns * m entries  what lies opposite each side: a side or a border half-edge
 *   B2e  k entries            the side opposite each border half-edge, in rising order
 *
 * An edit that makes vertices, or takes one away, is lent the points too: three doubles for each vertex,
 * those of vertex v from points[3 * (v - 1)] on.
 *
 * Columns. E2e has 3 * m entries where no element is a quadrilateral, 4 * m where at least one is: for
 * each element as many as the widest element of the list has sides. That number, 3 or 4, is called
 * columns, and borzhanu_columns says it. The entry of side i of element f is
 * e2e[columns * (f - 1) + (i - 1)]. In four columns a triangle's fourth entry is 0. The element list
 * has four entries for each element in any case.
 *
 * Buffers. Each is a pointer and a length in entries, all entries 32-bit but for the doubles of points and
 * the bytes of a text. The pointer is aligned to 4 bytes, to 8 for points, and that of a text may stand
 * anywhere; with length 0 it may be null, as an empty vector of C++ gives it. A buffer that a call writes
 * overlaps no other buffer of that call. Nothing else is asked: a call ends, with an answer or a refusal,
 * whatever the lengths are and whatever the buffers hold, and touches nothing beyond them.
 *
 * Answers. Every call returns one 64-bit number with three numbers in it; the functions
 * borzhanu_refusal, borzhanu_first and borzhanu_second take it apart. Refusal 0 means that the call
 * has answered. After a refusal, first and second are its place, 0 and 0 unless named below, and
 * borzhanu_refusal_text says it in words. borzhanu_shape answers one signed number in place of first and
 * second, which borzhanu_signed takes out.
 *
 * The calls keep nothing between them, so several threads may call at once on different buffers, or
 * on the same ones where every call only reads them.
 */
#ifndef BORZHANU_H
#define BORZHANU_H

#include <stddef.h>
#include <stdint.h>

#ifdef __cplusplus
extern "C" {
#endif

/* The largest numbers of vertices, elements and border half-edges. */
#define BORZHANU_MAX_VERTICES 1000000u
#define BORZHANU_MAX_ELEMENTS 1000000u
#define BORZHANU_MAX_BORDERS 4000000u

/* Why a call refused. Checks are made in this order, 18 after 8 and before 9, each over the whole list
   before the next. An edit tries the old list so, then 11 and 15, then 19, or 20 and 21, then the new list,
   with 9 last. Reading an OFF file has an order of its own: 16, 1, 17, 13. */
enum {
    /* The call has answered. */
    BORZHANU_ANSWERED = 0,
    /* More than 1,000,000 vertices or elements, or an element list whose length isn't a multiple of
       four. All buffers are as they were. */
    BORZHANU_SIZES = 1,
    /* A buffer is too short or too long for this n, this m and this number of columns; or a query was
       told columns other than 0, 3 and 4. All buffers are as they were. */
    BORZHANU_LENGTHS = 2,
    /* An element has the corner 0 among its first three, or a corner above n.
       Place: the first such element, its first such corner. */
    BORZHANU_CORNER_UNFIT = 3,
    /* An element has the same corner twice. Place: the first such element, the later corner. */
    BORZHANU_CORNER_REPEATED = 4,
    /* Reserved, so that the numbers after it stay. No call gives it: vertices that belong to no
       element are accepted. */
    BORZHANU_VERTEX_UNUSED = 5,
    /* Three or more elements meet at an edge; borzhanu_siblings takes such a list.
       Place: element and side of the least such side. */
    BORZHANU_EDGE_CROWDED = 6,
    /* Two elements run along an edge in the same direction: one of them is upside down, or is there
       twice. Place: element and side of the least such side. */
    BORZHANU_SIDES_ALIKE = 7,
    /* The elements at a vertex aren't one fan: they touch at this point alone.
       Place: the least such vertex, 0. */
    BORZHANU_FAN_BROKEN = 8,
    /* Two elements meet otherwise than at one corner or one edge: the least such pair, lower number
       first. */
    BORZHANU_ELEMENTS_CLASH = 18,
    /* B2e is too short. Place: k, the length that it needs, 0. */
    BORZHANU_BORDER_SHORT = 9,
    /* No element list of m elements that building accepts has exactly this V2e and this E2e. A list of
       triangles has its E2e in three columns alone: four columns of it give this. */
    BORZHANU_NO_LIST = 10,
    /* There is no such vertex, border or half-edge, or the question makes no sense for it. */
    BORZHANU_NOT_THERE = 11,
    /* The tables aren't those of a mesh: an entry that was read names nothing, or a walk doesn't
       come to its end. Or a walker's record isn't one that these calls made, or the columns told
       aren't those of the list. A V2e entry of 0 is fit where a vertex is asked about: the vertex is
       unused. */
    BORZHANU_TABLE_BROKEN = 12,
    /* An output is too short. Place: the length that it needs, 0. */
    BORZHANU_OUTPUT_SHORT = 13,
    /* A text isn't in the form that the listing program reads. Place: the first bad line, 0.
       No call below gives it. */
    BORZHANU_TEXT_UNFIT = 14,
    /* The edge that an edit was given isn't one between two triangles: the code is that of a border
       half-edge or of a border side, or an element beside it is a quadrilateral. A border side of a
       triangle can be split and contracted, named as a side. */
    BORZHANU_EDGE_UNFIT = 15,
    /* A text isn't in the form of an OFF file. Place: the line of the first bad item, or of the text's end
       where an item is missing, counted from 1, and 0; a line above 268,435,455 is given as that. */
    BORZHANU_OFF_UNFIT = 16,
    /* A face of an OFF file has other than 3 or 4 corners. Place: the first such face, counted from 1, and 0.
       It comes after 16 and 1. */
    BORZHANU_FACE_UNFIT = 17,
    /* An edit that makes the mesh larger finds no room: the new n or m would be over 1,000,000, or a
       buffer other than B2e is too short for the new mesh. It comes after 15. */
    BORZHANU_NO_ROOM = 19,
    /* The ends of the edge to be contracted have a common neighbour that isn't a third corner of the one or
       two triangles on the edge, as on a thin tube or by a small hole: it would be pinched there. It comes
       after 15. */
    BORZHANU_EDGE_PINCHED = 20,
    /* Contracting the edge would leave a vertex unused that was used: a third corner that belongs to no other
       element. It comes after 20. */
    BORZHANU_VERTEX_STRANDED = 21
};

/* What borzhanu_vertex_is_border answers. */
enum {
    /* The vertex is on no border: its elements go all the way round it. */
    BORZHANU_INNER = 0,
    /* The vertex is on a border. */
    BORZHANU_RIM = 1,
    /* The vertex belongs to no element: its V2e entry is 0. */
    BORZHANU_UNUSED = 2
};

/* The refusal number of what a call returned; 0: it has answered. */
static inline uint32_t borzhanu_refusal(uint64_t returned) {
    return (uint32_t)(returned >> 56);
}

/* The first number of the answer, or of the refusal's place. */
static inline uint32_t borzhanu_first(uint64_t returned) {
    return (uint32_t)(returned >> 28) & 0xFFFFFFFu;
}

/* The second number of the answer, or of the refusal's place. */
static inline uint32_t borzhanu_second(uint64_t returned) {
    return (uint32_t)returned & 0xFFFFFFFu;
}

/* The signed number that borzhanu_shape answers, where it does: the 56 bits below the refusal, in two's
   complement. */
static inline int64_t borzhanu_signed(uint64_t returned) {
    int64_t low = (int64_t)(returned & 0xFFFFFFFFFFFFFFu);
    return low < 0x80000000000000 ? low : low - 0x100000000000000;
}

/* What a refusal number means, in words; its place isn't in them. */
static inline const char *borzhanu_refusal_text(uint32_t refusal) {
    switch (refusal) {
    case BORZHANU_ANSWERED:
        return "the call has answered";
    case BORZHANU_SIZES:
        return "more than 1,000,000 vertices or elements, or an element list not in fours";
    case BORZHANU_LENGTHS:
        return "a buffer's length doesn't fit n, m and the columns, or the columns told aren't 0, 3 or 4";
    case BORZHANU_CORNER_UNFIT:
        return "a corner is 0 (not the fourth) or above n";
    case BORZHANU_CORNER_REPEATED:
        return "a corner comes twice in an element";
    case BORZHANU_VERTEX_UNUSED:
        return "reserved: vertices that belong to no element are accepted";
    case BORZHANU_EDGE_CROWDED:
        return "three or more elements meet at an edge";
    case BORZHANU_SIDES_ALIKE:
        return "two elements run along an edge in the same direction";
    case BORZHANU_FAN_BROKEN:
        return "the elements at a vertex aren't one fan";
    case BORZHANU_ELEMENTS_CLASH:
        return "two elements meet otherwise than at one corner or one edge";
    case BORZHANU_BORDER_SHORT:
        return "B2e is shorter than k";
    case BORZHANU_NO_LIST:
        return "no element list has exactly these tables";
    case BORZHANU_NOT_THERE:
        return "the vertex, border or half-edge isn't there, or the question isn't defined for it";
    case BORZHANU_TABLE_BROKEN:
        return "a table entry that was read names nothing, or a walk is overlong";
    case BORZHANU_OUTPUT_SHORT:
        return "the output is too short";
    case BORZHANU_TEXT_UNFIT:
        return "the listing program's text isn't in form";
    case BORZHANU_EDGE_UNFIT:
        return "the side or code named is a border or has a quadrilateral beside it";
    case BORZHANU_OFF_UNFIT:
        return "the text isn't in the form of an OFF file";
    case BORZHANU_FACE_UNFIT:
        return "a face has other than 3 or 4 corners";
    case BORZHANU_NO_ROOM:
        return "n or m would be over 1,000,000, or a buffer other than B2e is too short for the new mesh";
    case BORZHANU_EDGE_PINCHED:
        return "the edge's ends have a common neighbour that isn't a third corner of its triangles";
    case BORZHANU_VERTEX_STRANDED:
        return "a vertex that was used would be left unused";
    default:
        return "a refusal that this header doesn't know";
    }
}

/* The code of side i of element f. */
static inline uint32_t borzhanu_side(uint32_t f, uint32_t i) {
    return 8u * f + i;
}

/* The code of border half-edge b. */
static inline uint32_t borzhanu_border(uint32_t b) {
    return 8u * b;
}

/* Whether a code is that of a border half-edge: 1 or 0. Code 0, as V2e has it, is not. */
static inline int borzhanu_is_border_code(uint32_t code) {
    return code != 0 && code % 8u == 0;
}

/* b of border half-edge b; 0 for a side and for code 0. */
static inline uint32_t borzhanu_border_of(uint32_t code) {
    return code % 8u == 0 ? code / 8u : 0;
}

/* f of side i of element f; 0 for a border half-edge and for code 0. */
static inline uint32_t borzhanu_element_of(uint32_t code) {
    return code % 8u == 0 ? 0 : code / 8u;
}

/* i of side i of element f; 0 for a border half-edge and for code 0. */
static inline uint32_t borzhanu_number_of(uint32_t code) {
    return code % 8u;
}

/* The least length of the work buffer of build, recovery, siblings, holes, edits and shape, in entries. */
static inline size_t borzhanu_work_length(uint32_t n, size_t m) {
    return (size_t)n + 16u * m;
}

/* The length of E2e, in entries, where columns is what borzhanu_columns answered. */
static inline size_t borzhanu_e2e_length(uint32_t columns, size_t m) {
    return (size_t)columns * m;
}

/*
 * Reads an OFF file, the text in which Geomview and many meshers keep a surface, into an element list. Answers
 * n and m, the text's counts of vertices and faces.
 *
 *   text      the bytes of the file, only read
 *   elements  at least 4 * m entries; the length needn't be a multiple of four
 *
 * The text is a row of items: the word OFF; three whole numbers, which count vertices, faces and edges; three
 * decimal numbers for each vertex; for each face a whole number, which counts its corners, and then that many
 * whole numbers, its corners, vertices being counted from 0. After the last face no item follows.
 *
 *   items           parted by blanks (space, tab, return, newline) and comments, one or more; these may stand
 *                   before the first item and after the last one too. Lines mean nothing else. All other bytes,
 *                   of any kind, belong to items
 *   comment         from # to the next newline or the text's end, also directly after an item
 *   whole number    1 to 7 digits, leading zeros among them, no sign
 *   decimal number  a sign or none, digits, and perhaps a point with digits after it; as many digits as you
 *                   like. -0, 007 and +1.50 are decimal numbers; .5 and 5. aren't, nor 1e3: no exponents
 *
 * After an answer the first 4 * m entries of elements are the list, a face to a row: 1 is added to each corner,
 * so that vertices are counted from 1 as everywhere else here, and a triangle's fourth entry is 0. The rest of
 * elements is as it was. Coordinates and the edge count are passed over: they have to be in form, and what they
 * say isn't looked at. Corners that are above n then are left for building, which refuses them with 3.
 *
 * It refuses 16 where the text isn't in this form, with the line; then 1 where it counts more than 1,000,000
 * vertices or faces; then 17 where a face has other than 3 or 4 corners, with the face; then 13 where elements
 * is shorter than 4 * m, with that length. Nothing else comes. After a refusal elements is as it was. So a call
 * with length 0 tells by 13 how long the list has to be; where the text has no face it answers.
 *
 * Colours, which some programs write after a face, aren't in this form: a number after the last corner is taken
 * for the corner count of the next face. A file of triangles and quadrilaterals with a colour after each is
 * always refused. With colours after some of them it may be read, as other faces: have it written without.
 */
uint64_t borzhanu_read_off(const uint8_t *text, size_t text_len, uint32_t *elements, size_t elements_len);

/*
 * The number of columns of E2e. Answers 3 where no element of the list is a quadrilateral, so also for
 * a list of no element, else 4; the second number is 0. It looks at the fourth corner of each element,
 * and at nothing else. It refuses 1 and nothing else.
 *
 *   elements  4 * m entries, only read
 */
uint64_t borzhanu_columns(uint32_t n, const uint32_t *elements, size_t elements_len);

/*
 * Builds the three tables of an element list. Answers k, the number of border half-edges, and the
 * number of edges. Vertices that belong to no element change neither number; their V2e entry is 0.
 * With no element at all every vertex is such a one.
 *
 *   elements  4 * m entries, only read
 *   v2e       n entries
 *   e2e       columns * m entries: 3 * m where no element is a quadrilateral, else 4 * m
 *   b2e       at least k entries; n are always enough, since no two border sides end at the same
 *             vertex
 *   work      at least n + 16 * m entries
 *
 * After an answer v2e, e2e and the first k entries of b2e are the tables; the rest of b2e is as it
 * was. After a refusal, 1 to 4, 6 to 9 or 18, all three are as they were. What they and work hold
 * before doesn't matter. After 1 and 2 work is as it was; after everything else it is all zero.
 */
uint64_t borzhanu_build(uint32_t n,
                        const uint32_t *elements, size_t elements_len,
                        uint32_t *v2e, size_t v2e_len,
                        uint32_t *e2e, size_t e2e_len,
                        uint32_t *b2e, size_t b2e_len,
                        uint32_t *work, size_t work_len);

/*
 * Writes the one element list of m elements that building turns into exactly this V2e and this E2e.
 * Answers 0, 0. m is told, since lists of different m can have the same two tables: four triangles
 * apart and three quadrilaterals apart do.
 *
 *   v2e       n entries, only read
 *   e2e       3 * m or 4 * m entries, only read
 *   elements  4 * m entries
 *   work      at least n + 16 * m entries
 *
 * After an answer elements is the list; after a refusal, 1, 2 or 10, it is as it was. Nothing is
 * repaired: 10 means that no list of m elements has these tables, as where V2e has 0 for a vertex that
 * the other entries give a side, or a half-edge for a vertex that they give none, or where E2e has
 * four columns and no quadrilateral. A list that building refuses has no tables, so 10 comes too where
 * the only list that these could belong to is refused with 18. After 1 and 2 work is as it was; after
 * everything else it is all zero.
 */
uint64_t borzhanu_recover(uint32_t n, uint32_t m,
                          const uint32_t *v2e, size_t v2e_len,
                          const uint32_t *e2e, size_t e2e_len,
                          uint32_t *elements, size_t elements_len,
                          uint32_t *work, size_t work_len);

/*
 * Writes which sides of an element list meet, also where three elements or more meet at an edge, as in a
 * stiffened housing. Answers 0, 0. It refuses 1 to 4, by the lengths below and else as building does, and
 * nothing else: lists that building refuses with 6, 7, 8 or 18 have an answer here.
 *
 *   elements  4 * m entries, only read
 *   v2e       n entries
 *   siblings  4 * m entries, also where no element is a quadrilateral
 *   work      at least n + 16 * m entries
 *
 * After an answer the entry of side i of element f is siblings[4 * (f - 1) + (i - 1)]: of the sides that
 * join the same two vertices, in either direction, the next higher one by its code; after the highest
 * comes the lowest, and a side that is alone has itself. A triangle's fourth entry is 0. The entry of a
 * vertex in v2e is the least side with its origin there, 0 where there is none. It is never a border
 * half-edge, so this is not the V2e that the queries take. From it siblings lead to the elements that
 * hang together by edges at the vertex; others may touch them at this point alone, as two fans do.
 *
 * After a refusal v2e and siblings are as they were. What they and work hold before doesn't matter. After
 * 1 and 2 work is as it was; after everything else it is all zero.
 *
 * Where building answers too, a side is its own sibling if a border half-edge lies opposite; if not, its
 * sibling is what lies opposite.
 */
uint64_t borzhanu_siblings(uint32_t n,
                           const uint32_t *elements, size_t elements_len,
                           uint32_t *v2e, size_t v2e_len,
                           uint32_t *siblings, size_t siblings_len,
                           uint32_t *work, size_t work_len);

/*
 * The entry of a side in what borzhanu_siblings wrote, 4 * m entries: its sibling. 0 for a code that has no
 * entry, as code 0, which v2e holds for a vertex without a side. The elements at the edge of a side, each
 * once:
 *
 *     uint32_t at = side;
 *     do {
 *         printf(" %u", borzhanu_element_of(at));
 *         at = borzhanu_sibling(siblings, siblings_len, at);
 *     } while (at != side);
 *
 * Of the sides of an edge the highest alone has a sibling that isn't higher than itself: the lowest. So a
 * loop over all sides that looks for these comes to each edge once.
 */
static inline uint32_t borzhanu_sibling(const uint32_t *siblings, size_t siblings_len, uint32_t side) {
    size_t f = borzhanu_element_of(side), i = borzhanu_number_of(side);
    if (i < 1u || i > 4u || f < 1u || f > siblings_len / 4u)
        return 0;
    return siblings[4u * (f - 1u) + (i - 1u)];
}

/*
 * An edit changes an element list and writes the tables of the new list. n and m travel in `size`, n
 * first: an edit reads them there and, where it answers, puts the new ones there for the next edit.
 *
 * The buffers of an edit may be longer than what they hold. The list is the first 4 * m entries of
 * elements, whose length needn't be a multiple of four. List and tables are written from their buffers'
 * starts; entries past both the old and the new ones are never looked at and stay as they were. Where an edit
 * makes the mesh smaller, entries between the new and the old length become 0, but not in b2e.
 */

/*
 * Swaps the diagonal of two triangles, as mesh smoothers do. `code` names a side of the one, from a to b.
 * With c the third corner of that triangle and d the third corner of the other, the row of the side becomes
 * (c,a,d) and the other's (d,b,c): a and b are joined no more, c and d are. Answers k and the number of
 * edges, as building does; they, n and m are those of the old list.
 *
 *   size      two entries, n and m; never null, and no part of another buffer
 *   elements  at least 4 * m entries
 *   v2e       at least n entries
 *   e2e       at least columns * m entries, the columns being those of the m elements
 *   b2e       at least k entries; n are always enough
 *   work      at least n + 16 * m entries
 *
 * After an answer elements is the new list, and v2e, e2e and b2e are the tables that building gives of it.
 * What the tables and work hold before doesn't matter; the old tables needn't be there.
 *
 * It refuses 1, by n and m alone; 2, by these lengths but for b2e's; 3, 4, 6 to 8 and 18 where building
 * refuses the list with that; 11 where no side and no border half-edge has this code; 15 where the code
 * is that of a border half-edge or of a border side, or one of the two elements is a quadrilateral; 6
 * where c and d are joined already, and 18 where they are a diagonal of a quadrilateral, with the place
 * that building names in the new list; and 9. After a refusal size, list and tables are as they were.
 * After 1 and 2 work is as it was; after everything else it is all zero.
 *
 * The new diagonal is side 3 of both rows. Swapped as well, from either row, it gives the old one back, with
 * the two triangles in each other's rows, as (a,d,b) and (b,c,a).
 *
 * In a loop of edits size goes along, and a refused edit changes nothing:
 *
 *     uint32_t size[2] = {n, m};
 *     for (size_t i = 0; i < count; i++)
 *         swapped += borzhanu_refusal(borzhanu_swap(size, elements, 4u * m, v2e, n, e2e, columns * m, b2e, n,
 *                                                   work, work_len, sides[i])) == BORZHANU_ANSWERED;
 *
 * The queries take the same buffers, each cut to what it holds. A borzhanu_mesh of them, put together after
 * building, can be asked between swaps: n, m, k and the columns, and so all its members, stay as they are.
 */
uint64_t borzhanu_swap(uint32_t size[2],
                       uint32_t *elements, size_t elements_len,
                       uint32_t *v2e, size_t v2e_len,
                       uint32_t *e2e, size_t e2e_len,
                       uint32_t *b2e, size_t b2e_len,
                       uint32_t *work, size_t work_len, uint32_t code);

/*
 * Splits an edge and places its midpoint, as refining near a bracket does. `code` names a side from a to b,
 * inner or on the border. The new vertex is v = n + 1. The triangle (a,b,c) of the side becomes (a,v,c), and
 * (v,b,c) is appended to the list; its partner (b,a,d), if there is one, becomes (b,v,d), and (v,a,d) is
 * appended after that. Every corner keeps its place in the row, and v takes the place of the corner that it
 * stands for. So m grows by 2, or by 1 on the border. Answers k and the number of edges, as building does: on
 * an inner edge k stays and there are 3 edges more, on the border k grows by 1 and there are 2 edges more.
 *
 *   size      two entries, n and m; never null, and no part of another buffer
 *   elements  at least 4 * m entries
 *   v2e       at least n entries
 *   e2e       at least columns * m entries, the columns being those of the m elements
 *   b2e       at least the new k entries; n + 1 are always enough
 *   points    at least 3 * n doubles; finite or not, none is looked at but those of a and b
 *   work      at least n + 16 * m entries
 *
 * An answer needs the same lengths for the new n and m: n + 1, and m + 2 or, on the border, m + 1. Who wants
 * to go on splitting lends longer buffers from the start, or larger ones when 19 comes.
 *
 * After an answer size is the new n and m, elements is the new list, v2e, e2e and b2e are the tables that
 * building gives of it, and the three numbers from points[3 * n] on, n being the old one, are the new point:
 * each is (x + y) * 0.5, x and y being the ends' numbers, both operations rounded to nearest as IEEE 754
 * says. Of whole numbers from -2^52 to 2^52 it is exactly half the sum. A sum beyond the range of double is
 * an infinity; where x or y is a NaN, or they are opposite infinities, the new number is a NaN, and which one
 * isn't promised. All old points stay, bit for bit, and so do the columns. What the tables and work hold
 * before doesn't matter.
 *
 * The processor has to be in the mode for doubles in which programs start. Where a host has set another
 * rounding, or has subnormal numbers flushed to 0, as linking with -ffast-math does, the new point is
 * rounded so.
 *
 * It refuses 1, by n and m alone; 2, by the lengths above but for b2e's; 3, 4, 6 to 8 and 18 where building
 * refuses the list with that; 11 where no side and no border half-edge has this code; 15 where the code is
 * that of a border half-edge, or one of the elements beside the side is a quadrilateral; 19 where n + 1 or
 * the new m is over its maximum, or a buffer but b2e is too short for the new mesh; and 9, by the new k.
 * Nothing else comes: of an accepted list the new one is accepted. After a refusal size, list, tables and
 * points are as they were, also where the new rows would stand. After 1 and 2 work is as it was; after
 * everything else it is all zero.
 *
 * In a loop of edits size goes along, and a refused edit changes nothing:
 *
 *     uint32_t size[2] = {n, m};
 *     for (size_t i = 0; i < count; i++)
 *         split += borzhanu_refusal(borzhanu_split(size, elements, elements_len, v2e, v2e_len, e2e, e2e_len,
 *                                                  b2e, b2e_len, points, points_len, work, work_len,
 *                                                  sides[i])) == BORZHANU_ANSWERED;
 *
 * A borzhanu_mesh of these buffers has to be put together anew: n, m, with them the lengths, and on the
 * border k have changed.
 */
uint64_t borzhanu_split(uint32_t size[2],
                        uint32_t *elements, size_t elements_len,
                        uint32_t *v2e, size_t v2e_len,
                        uint32_t *e2e, size_t e2e_len,
                        uint32_t *b2e, size_t b2e_len,
                        double *points, size_t points_len,
                        uint32_t *work, size_t work_len, uint32_t code);

/*
 * Contracts an edge and closes the gaps, as coarsening does. `code` names a side from a to b, inner or on the
 * border: b is merged into a. The triangle of the side and its partner, if there is one, go, the
 * higher-numbered first; each time the last row of the list takes the freed number. Every b becomes a; then
 * the last vertex, which is n, takes number b, with its point. The point of a stays. Where the row or the
 * vertex that goes is itself the last, nothing takes its number; where a is the last vertex, it is number b
 * afterwards. So n shrinks by 1, and m by 2, or by 1 on the border. Answers k and the number of edges, as
 * building does: on an inner edge k stays and there are 3 edges fewer, on the border k shrinks by 1 and there
 * are 2 edges fewer.
 *
 *   size      two entries, n and m; never null, and no part of another buffer
 *   elements  at least 4 * m entries
 *   v2e       at least n entries
 *   e2e       at least columns * m entries, the columns being those of the m elements
 *   b2e       at least the new k entries; n - 1 are always enough
 *   points    at least 3 * n doubles; finite or not, none is reckoned with
 *   work      at least n + 16 * m entries
 *
 * After an answer size is the new n and m, elements is the new list, and v2e, e2e and b2e are the tables that
 * building gives of it. With n and m the old numbers and m' the new number of elements:
 *
 *   elements  0 from elements[4 * m'] to elements[4 * m - 1]
 *   v2e       0 in v2e[n - 1]
 *   e2e       0 from e2e[columns * m'] to e2e[columns * m - 1]; the columns stay
 *   b2e       as it was past its first k entries: entries of the old B2e may stand there
 *   points    those of b are the three numbers that those of n were, bit for bit, and the last three, from
 *             points[3 * (n - 1)] on, are +0.0; all others are as they were
 *
 * Past the old lengths every buffer is as it was. What the tables and work hold before doesn't matter.
 *
 * It refuses 1, by n and m alone; 2, by the lengths above but for b2e's; 3, 4, 6 to 8 and 18 where building
 * refuses the list with that; 11 where no side and no border half-edge has this code; 15 where the code is
 * that of a border half-edge, or one of the elements beside the side is a quadrilateral; 20 where a vertex
 * that no triangle on the edge has is joined by an edge both to a and to b, be it by the sides of
 * quadrilaterals (a diagonal joins nothing); 21 where a vertex other than b that was used would be left
 * unused, as a third corner that belongs to no other element; then what building says of the new list, with
 * the place that it names there: 8 where a and b are both on a border and the edge isn't, so that two fans
 * would be left at one point, and 18 where two elements would meet otherwise than at one corner or one edge,
 * as on a tetrahedron; and 9, by the new k. Nothing else comes. After a refusal size, list, tables and points
 * are as they were. After 1 and 2 work is as it was; after everything else it is all zero.
 *
 * A split and then the contraction of the same code give n, m, list, tables and points back, with 0 where the
 * new ones stood.
 *
 * Rows and vertices get other numbers: a code or a vertex number from before an answer may mean another side
 * or vertex after it, or none. So in a loop of contractions the next edge is looked for when the one before is
 * done, as hosts/examples/coarsen.c does. A borzhanu_mesh of these buffers has to be put together anew: n, m,
 * with them the lengths, and on the border k have changed.
 */
uint64_t borzhanu_contract(uint32_t size[2],
                           uint32_t *elements, size_t elements_len,
                           uint32_t *v2e, size_t v2e_len,
                           uint32_t *e2e, size_t e2e_len,
                           uint32_t *b2e, size_t b2e_len,
                           double *points, size_t points_len,
                           uint32_t *work, size_t work_len, uint32_t code);

/*
 * Answers the number of a housing's shape, vertices - edges + elements, which may be 0 or negative:
 * borzhanu_signed takes it out of what is returned. All n vertices count, also those that belong to no
 * element. Edges are the pairs of vertices that a side joins, each counted once, however many sides join it.
 *
 *   elements  4 * m entries, only read
 *   work      at least n + 16 * m entries
 *
 * A closed housing of one piece without handles has the number 2. Each opening makes it 1 less, and the outer
 * rim of a plate is one; each handle, as a ring duct has one, makes it 2 less; the numbers of several pieces
 * are added up; and each vertex that belongs to no element makes it 1 more. So the number is
 *
 *     2 * pieces - openings - 2 * handles + spare vertices
 *
 * Another number than the drawing's shows that something is wrong. The same number doesn't show that nothing
 * is: a missing plate and a spare vertex cancel. hosts/examples/shape.c compares openings, handles and spare
 * vertices too. Swaps, splits and contractions never change the number, however many there are.
 *
 * No tables are needed. It refuses as building does but for 9: 1; 2 where work is too short, and for no other
 * length; 3, 4, 6 to 8 and 18, with the places that building names. What work holds before doesn't matter.
 * After 1 and 2 it is as it was; after everything else it is all zero.
 */
uint64_t borzhanu_shape(uint32_t n,
                        const uint32_t *elements, size_t elements_len,
                        uint32_t *work, size_t work_len);

/*
 * The queries take a mesh: n, columns, an element list (4 * m entries), V2e (n), E2e (columns * m) and
 * B2e (exactly k entries, so cut after building; never more than 4 * m). They only read these. Each
 * refuses 1, 2 and 11 as above, and 12 where an entry that it reads is broken; tables that building
 * wrote never give 12. Where no second number is named, it is 0.
 *
 * columns is 0, 3 or 4; any other number is refused, 2.
 *
 *   3, 4  You have asked borzhanu_columns once, for this list, and tell what it answered. A query then
 *         reads what it asks about and no more, however long the list is.
 *   0     You haven't. The query looks at the whole list, at each call. The answer is the same.
 *
 * Told 3 for a list with a quadrilateral, or 4 for one without, a query still ends. It asks E2e for
 * the length of the columns told, and reads it so. A fourth side has no entry in three columns: where
 * that would be read, 12 comes.
 *
 * borzhanu_mesh, at the end of this file, holds a mesh together, and its functions ask the same queries
 * with fewer arguments.
 *
 * A query about a vertex goes by its V2e entry. An entry of 0 says that the vertex is unused, and it
 * is believed: elements that have the vertex all the same aren't looked for.
 */

/* The half-edge that runs along the same edge the other way. */
uint64_t borzhanu_opposite(uint32_t n, uint32_t columns,
                           const uint32_t *elements, size_t elements_len,
                           const uint32_t *v2e, size_t v2e_len,
                           const uint32_t *e2e, size_t e2e_len,
                           const uint32_t *b2e, size_t b2e_len, uint32_t code);

/*
 * The half-edge that follows: of a side, in its element; of a border half-edge, along its border, by
 * the V2e entry of the vertex where it ends. An entry there that is no border half-edge, 0 included,
 * gives 12.
 */
uint64_t borzhanu_next(uint32_t n, uint32_t columns,
                       const uint32_t *elements, size_t elements_len,
                       const uint32_t *v2e, size_t v2e_len,
                       const uint32_t *e2e, size_t e2e_len,
                       const uint32_t *b2e, size_t b2e_len, uint32_t code);

/* The side before a side, in its element. A border half-edge is refused, 11. */
uint64_t borzhanu_previous(uint32_t n, uint32_t columns,
                           const uint32_t *elements, size_t elements_len,
                           const uint32_t *v2e, size_t v2e_len,
                           const uint32_t *e2e, size_t e2e_len,
                           const uint32_t *b2e, size_t b2e_len, uint32_t code);

/* The element of a side. A border half-edge is refused, 11. */
uint64_t borzhanu_element(uint32_t n, uint32_t columns,
                          const uint32_t *elements, size_t elements_len,
                          const uint32_t *v2e, size_t v2e_len,
                          const uint32_t *e2e, size_t e2e_len,
                          const uint32_t *b2e, size_t b2e_len, uint32_t code);

/* The vertex where a half-edge begins. */
uint64_t borzhanu_origin(uint32_t n, uint32_t columns,
                         const uint32_t *elements, size_t elements_len,
                         const uint32_t *v2e, size_t v2e_len,
                         const uint32_t *e2e, size_t e2e_len,
                         const uint32_t *b2e, size_t b2e_len, uint32_t code);

/* The vertex where a half-edge ends. */
uint64_t borzhanu_destination(uint32_t n, uint32_t columns,
                              const uint32_t *elements, size_t elements_len,
                              const uint32_t *v2e, size_t v2e_len,
                              const uint32_t *e2e, size_t e2e_len,
                              const uint32_t *b2e, size_t b2e_len, uint32_t code);

/* The element on the other side of a side, or 0 at a border. A border half-edge is refused, 11. */
uint64_t borzhanu_across(uint32_t n, uint32_t columns,
                         const uint32_t *elements, size_t elements_len,
                         const uint32_t *v2e, size_t v2e_len,
                         const uint32_t *e2e, size_t e2e_len,
                         const uint32_t *b2e, size_t b2e_len, uint32_t code);

/* 1 for a border half-edge, 0 for a side. */
uint64_t borzhanu_halfedge_is_border(uint32_t n, uint32_t columns,
                                     const uint32_t *elements, size_t elements_len,
                                     const uint32_t *v2e, size_t v2e_len,
                                     const uint32_t *e2e, size_t e2e_len,
                                     const uint32_t *b2e, size_t b2e_len, uint32_t code);

/*
 * What a vertex is: 0 inner, 1 rim, 2 unused, as BORZHANU_INNER, BORZHANU_RIM and BORZHANU_UNUSED. So
 * an answer other than 0 doesn't yet say that the vertex is on a border.
 */
uint64_t borzhanu_vertex_is_border(uint32_t n, uint32_t columns,
                                   const uint32_t *elements, size_t elements_len,
                                   const uint32_t *v2e, size_t v2e_len,
                                   const uint32_t *e2e, size_t e2e_len,
                                   const uint32_t *b2e, size_t b2e_len, uint32_t v);

/*
 * The three lists below answer their count. They are written from the start of out; the rest of out
 * is as it was. After a refusal, 1, 2 or 11 to 13, all of out is as it was; 13 names the length that
 * the list needs.
 */

/*
 * The elements about a vertex, in turn order, each once: at a border from rim to rim. None at an
 * unused vertex: the count is 0, and nothing is written. At most m entries.
 */
uint64_t borzhanu_ring(uint32_t n, uint32_t columns,
                       const uint32_t *elements, size_t elements_len,
                       const uint32_t *v2e, size_t v2e_len,
                       const uint32_t *e2e, size_t e2e_len,
                       const uint32_t *b2e, size_t b2e_len,
                       uint32_t v, uint32_t *out, size_t out_len);

/*
 * The vertices joined to a vertex by an edge, in turn order; at a border one more than the ring has
 * elements. None at an unused vertex: the count is 0, and nothing is written. At most m + 1 entries.
 */
uint64_t borzhanu_neighbours(uint32_t n, uint32_t columns,
                             const uint32_t *elements, size_t elements_len,
                             const uint32_t *v2e, size_t v2e_len,
                             const uint32_t *e2e, size_t e2e_len,
                             const uint32_t *b2e, size_t b2e_len,
                             uint32_t v, uint32_t *out, size_t out_len);

/*
 * The border half-edges of one hole, as border numbers: b, the next one, and so on until b would come
 * again. On tables that building wrote these are all that borzhanu_next leads to from b, each once. At
 * most k entries.
 */
uint64_t borzhanu_border_loop(uint32_t n, uint32_t columns,
                              const uint32_t *elements, size_t elements_len,
                              const uint32_t *v2e, size_t v2e_len,
                              const uint32_t *e2e, size_t e2e_len,
                              const uint32_t *b2e, size_t b2e_len,
                              uint32_t b, uint32_t *out, size_t out_len);

/*
 * The hole of each border half-edge and the length of each hole, as a duct's openings are checked by
 * their rims. Answers the number of holes; the outer rim of an open plate is one of them. Two border
 * half-edges have one hole exactly when the border loop of one lists the other. Holes are numbered from
 * 1, in the order of the least border half-edge of each.
 *
 *   hole     at least k entries
 *   lengths  at least k entries, however few holes there are
 *   work     at least n + 16 * m entries
 *
 * After an answer hole[b - 1] is the hole of border half-edge b, and lengths[h - 1] says how many border
 * half-edges hole h has; all lengths add up to k. Entries of hole past k are as they were, and so are
 * those of lengths past the number of holes.
 *
 * It refuses 1 and 2 as every query does, and 2 where work is too short; then 12 where the border loop of
 * any border half-edge does; then 13, which names k, where hole or lengths is too short. Nothing is asked
 * about, so 11 never comes. Of E2e only the length is looked at. After a refusal hole and lengths are as
 * they were. What they and work hold before doesn't matter. After 1 and 2 work is as it was; after
 * everything else it is all zero.
 */
uint64_t borzhanu_holes(uint32_t n, uint32_t columns,
                        const uint32_t *elements, size_t elements_len,
                        const uint32_t *v2e, size_t v2e_len,
                        const uint32_t *e2e, size_t e2e_len,
                        const uint32_t *b2e, size_t b2e_len,
                        uint32_t *hole, size_t hole_len,
                        uint32_t *lengths, size_t lengths_len,
                        uint32_t *work, size_t work_len);

/* How far a walk about a vertex has come. */
typedef struct borzhanu_walker {
    uint32_t start; /* the side where the ring begins; 0 for an unused vertex */
    uint32_t next;  /* the side whose element comes next; 0 when the ring is over */
    uint32_t count; /* the elements handed out so far */
} borzhanu_walker;

/*
 * Sets a walker to the beginning of the ring of v: the start side, the start side again, and 0; for an
 * unused vertex 0, 0, 0, a ring that is over. Answers 0. After a refusal the record is as it was.
 */
uint64_t borzhanu_walker_start(uint32_t n, uint32_t columns,
                               const uint32_t *elements, size_t elements_len,
                               const uint32_t *v2e, size_t v2e_len,
                               const uint32_t *e2e, size_t e2e_len,
                               const uint32_t *b2e, size_t b2e_len,
                               uint32_t v, borzhanu_walker *walker);

/*
 * Answers the next element of the ring and moves the walker on; when the ring is over it answers 0 and
 * leaves the record as it was, however often it is called. After a refusal, 1, 2 or 12, the record is
 * as it was.
 */
uint64_t borzhanu_walker_step(uint32_t n, uint32_t columns,
                              const uint32_t *elements, size_t elements_len,
                              const uint32_t *v2e, size_t v2e_len,
                              const uint32_t *e2e, size_t e2e_len,
                              const uint32_t *b2e, size_t b2e_len, borzhanu_walker *walker);

/*
 * A mesh as the queries take it. Its buffers are lent, not copied; the lengths are in entries. Put it
 * together once, with the columns that borzhanu_columns answered, or with 0 and then
 * borzhanu_mesh_look. When the element list changes, look again, but for an edit, after which the columns are
 * the same. A swap leaves all other members right too; after a split or a contraction n and lengths are others.
 */
typedef struct borzhanu_mesh {
    uint32_t n;
    uint32_t columns; /* 0, 3 or 4, as the queries are told it */
    const uint32_t *elements;
    size_t elements_len; /* 4 * m */
    const uint32_t *v2e;
    size_t v2e_len; /* n */
    const uint32_t *e2e;
    size_t e2e_len; /* columns * m */
    const uint32_t *b2e;
    size_t b2e_len; /* k */
} borzhanu_mesh;

/*
 * Asks borzhanu_columns, and returns what it returned. Where it answers, columns of the mesh is put to
 * the answer; where it refuses, columns is as it was.
 */
static inline uint64_t borzhanu_mesh_look(borzhanu_mesh *mesh) {
    uint64_t returned = borzhanu_columns(mesh->n, mesh->elements, mesh->elements_len);
    if (borzhanu_refusal(returned) == BORZHANU_ANSWERED)
        mesh->columns = borzhanu_first(returned);
    return returned;
}

/* The queries above, each of a mesh. room is the length of out. */
#define BORZHANU_LENT_(mesh) \
    (mesh)->n, (mesh)->columns, (mesh)->elements, (mesh)->elements_len, (mesh)->v2e, (mesh)->v2e_len, \
        (mesh)->e2e, (mesh)->e2e_len, (mesh)->b2e, (mesh)->b2e_len

static inline uint64_t borzhanu_mesh_opposite(const borzhanu_mesh *mesh, uint32_t code) {
    return borzhanu_opposite(BORZHANU_LENT_(mesh), code);
}

static inline uint64_t borzhanu_mesh_next(const borzhanu_mesh *mesh, uint32_t code) {
    return borzhanu_next(BORZHANU_LENT_(mesh), code);
}

static inline uint64_t borzhanu_mesh_previous(const borzhanu_mesh *mesh, uint32_t code) {
    return borzhanu_previous(BORZHANU_LENT_(mesh), code);
}

static inline uint64_t borzhanu_mesh_element(const borzhanu_mesh *mesh, uint32_t code) {
    return borzhanu_element(BORZHANU_LENT_(mesh), code);
}

static inline uint64_t borzhanu_mesh_origin(const borzhanu_mesh *mesh, uint32_t code) {
    return borzhanu_origin(BORZHANU_LENT_(mesh), code);
}

static inline uint64_t borzhanu_mesh_destination(const borzhanu_mesh *mesh, uint32_t code) {
    return borzhanu_destination(BORZHANU_LENT_(mesh), code);
}

static inline uint64_t borzhanu_mesh_across(const borzhanu_mesh *mesh, uint32_t code) {
    return borzhanu_across(BORZHANU_LENT_(mesh), code);
}

static inline uint64_t borzhanu_mesh_halfedge_is_border(const borzhanu_mesh *mesh, uint32_t code) {
    return borzhanu_halfedge_is_border(BORZHANU_LENT_(mesh), code);
}

static inline uint64_t borzhanu_mesh_vertex_is_border(const borzhanu_mesh *mesh, uint32_t v) {
    return borzhanu_vertex_is_border(BORZHANU_LENT_(mesh), v);
}

static inline uint64_t borzhanu_mesh_ring(const borzhanu_mesh *mesh, uint32_t v, uint32_t *out,
                                          size_t room) {
    return borzhanu_ring(BORZHANU_LENT_(mesh), v, out, room);
}

static inline uint64_t borzhanu_mesh_neighbours(const borzhanu_mesh *mesh, uint32_t v, uint32_t *out,
                                                size_t room) {
    return borzhanu_neighbours(BORZHANU_LENT_(mesh), v, out, room);
}

static inline uint64_t borzhanu_mesh_border_loop(const borzhanu_mesh *mesh, uint32_t b, uint32_t *out,
                                                 size_t room) {
    return borzhanu_border_loop(BORZHANU_LENT_(mesh), b, out, room);
}

static inline uint64_t borzhanu_mesh_holes(const borzhanu_mesh *mesh, uint32_t *hole, size_t hole_len,
                                           uint32_t *lengths, size_t lengths_len, uint32_t *work,
                                           size_t work_len) {
    return borzhanu_holes(BORZHANU_LENT_(mesh), hole, hole_len, lengths, lengths_len, work, work_len);
}

static inline uint64_t borzhanu_mesh_walker_start(const borzhanu_mesh *mesh, uint32_t v,
                                                  borzhanu_walker *walker) {
    return borzhanu_walker_start(BORZHANU_LENT_(mesh), v, walker);
}

static inline uint64_t borzhanu_mesh_walker_step(const borzhanu_mesh *mesh, borzhanu_walker *walker) {
    return borzhanu_walker_step(BORZHANU_LENT_(mesh), walker);
}

#undef BORZHANU_LENT_

#ifdef __cplusplus
}
#endif

#endif
