#include "header.h"

#include "asking.h"
#include "borzhanu.h"

#include <stdio.h>
#include <string.h>

static void fail_number(const char *what, uint32_t number) {
    printf("MISMATCH: include/borzhanu.h: %s %u\n", what, number);
    stop();
}

/* Each name stands for its place in the list, counted from 0. */
static void check_names(const uint32_t *names, size_t count, const char *what) {
    for (uint32_t i = 0; i < count; i++)
        if (names[i] != i)
            fail_number(what, i);
}

/* The refusals, with 5, which no call gives, in its place; and what a vertex can be. */
static void check_numbers(void) {
    static const uint32_t refusals[] = {
        BORZHANU_ANSWERED,        BORZHANU_SIZES,           BORZHANU_LENGTHS,
        BORZHANU_CORNER_UNFIT,    BORZHANU_CORNER_REPEATED, BORZHANU_VERTEX_UNUSED,
        BORZHANU_EDGE_CROWDED,    BORZHANU_SIDES_ALIKE,     BORZHANU_FAN_BROKEN,
        BORZHANU_BORDER_SHORT,    BORZHANU_NO_LIST,         BORZHANU_NOT_THERE,
        BORZHANU_TABLE_BROKEN,    BORZHANU_OUTPUT_SHORT,    BORZHANU_TEXT_UNFIT,
        BORZHANU_EDGE_UNFIT,      BORZHANU_OFF_UNFIT,       BORZHANU_FACE_UNFIT,
        BORZHANU_ELEMENTS_CLASH,  BORZHANU_NO_ROOM,         BORZHANU_EDGE_PINCHED,
        BORZHANU_VERTEX_STRANDED,
    };
    static const uint32_t vertices[] = {BORZHANU_INNER, BORZHANU_RIM, BORZHANU_UNUSED};
    check_names(refusals, sizeof refusals / sizeof *refusals, "another name for refusal");
    check_names(vertices, sizeof vertices / sizeof *vertices, "another name for a vertex that is");
}

/* `whole` and `rest` are what was counted: the code is 8 * whole + rest */
static void check_code(uint32_t code, uint32_t whole, uint32_t rest) {
    int border = rest == 0;
    if (borzhanu_is_border_code(code) != (border && whole != 0))
        fail_number("borzhanu_is_border_code of", code);
    if (borzhanu_border_of(code) != (border ? whole : 0))
        fail_number("borzhanu_border_of", code);
    if (borzhanu_element_of(code) != (border ? 0 : whole))
        fail_number("borzhanu_element_of", code);
    if (borzhanu_number_of(code) != rest)
        fail_number("borzhanu_number_of", code);
    if ((border ? borzhanu_border(whole) : borzhanu_side(whole, rest)) != code)
        fail_number("the code is made otherwise,", code);
}

/* All codes up to one past the greatest, that of the last border half-edge. */
static void check_codes(void) {
    uint32_t code = 0;
    for (uint32_t whole = 0; whole <= BORZHANU_MAX_BORDERS + 1; whole++)
        for (uint32_t rest = 0; rest < 8; rest++, code++)
            check_code(code, whole, rest);
}

static void check_signed_as(uint64_t returned, int64_t number) {
    static const uint64_t refusals[] = {0, 1, 18, 255};
    for (size_t i = 0; i < sizeof refusals / sizeof *refusals; i++)
        if (borzhanu_signed(refusals[i] << 56 | returned) != number)
            fail_number("borzhanu_signed of a number whose low bits are", (uint32_t)returned);
}

/* Powers of two and the numbers before them, from -2^55 to 2^55 - 1, the least number and the greatest. The bits of -x
   are those of 2^56 - x, and the bits of the refusal aren't looked at. */
static void check_signed(void) {
    const uint64_t all = (uint64_t)1 << 56;
    check_signed_as(0, 0);
    for (uint64_t x = 1; x < all / 2; x *= 2) {
        check_signed_as(x, (int64_t)x);
        check_signed_as(2 * x - 1, (int64_t)(2 * x - 1));
        check_signed_as(all - x, -(int64_t)x);
        check_signed_as(all - 2 * x, -(int64_t)(2 * x));
        check_signed_as(all - (2 * x - 1), -(int64_t)(2 * x - 1));
    }
}

static const char *sentence(uint32_t number) {
    const char *text = borzhanu_refusal_text(number);
    if (text == NULL || *text == '\0')
        fail_number("nothing said for refusal", number);
    return text;
}

static int same_sentence(uint32_t a, uint32_t b) {
    return strcmp(sentence(a), sentence(b)) == 0;
}

static int is_refusal(uint32_t number) {
    return number <= BORZHANU_VERTEX_STRANDED;
}

static void check_own_sentence(uint32_t number) {
    if (same_sentence(number, UINT32_MAX))
        fail_number("no sentence for refusal", number);
    for (uint32_t other = 0; other < number; other++)
        if (same_sentence(number, other))
            fail_number("another number's sentence for refusal", number);
}

/* Each refusal has a sentence of its own; all other numbers share one. */
static void check_sentences(void) {
    enum { NUMBERS = 256 };
    for (uint32_t number = 0; number < NUMBERS; number++)
        if (is_refusal(number))
            check_own_sentence(number);
        else if (!same_sentence(number, UINT32_MAX))
            fail_number("a sentence for what is no refusal,", number);
}

static void check_words(uint32_t number, const char *words) {
    if (strcmp(sentence(number), words) != 0)
        fail_number("other words for refusal", number);
}

static void check_lengths(void) {
    size_t three = 0, four = 0;
    for (uint32_t m = 0; m <= 1000; m++, three += 3, four += 4)
        if (borzhanu_e2e_length(3, m) != three || borzhanu_e2e_length(4, m) != four)
            fail_number("another length of E2e for m", m);
}

/* The map is read at the places of the element list, one after another. */
static void check_sibling(void) {
    enum { ROWS = 1000 };
    static uint32_t siblings[4 * ROWS];
    uint32_t place = 0;
    for (uint32_t f = 1; f <= ROWS; f++)
        for (uint32_t i = 1; i <= 4; i++, place++) {
            siblings[place] = borzhanu_side(ROWS, 1) + place;
            if (borzhanu_sibling(siblings, 4 * ROWS, borzhanu_side(f, i)) != siblings[place])
                fail_number("borzhanu_sibling of", borzhanu_side(f, i));
        }
    /* borders, side numbers that no element has, elements that aren't there */
    for (uint32_t code = 0; code < 8 * (ROWS + 10); code++)
        if ((code % 8 == 0 || code % 8 > 4 || code / 8 == 0 || code / 8 > ROWS) &&
            borzhanu_sibling(siblings, 4 * ROWS, code) != 0)
            fail_number("borzhanu_sibling of", code);
    if (borzhanu_sibling(siblings, 0, borzhanu_side(1, 1)) != 0)
        fail_number("borzhanu_sibling in an empty map, of", borzhanu_side(1, 1));
}

void check_header(void) {
    check_numbers();
    check_codes();
    check_signed();
    check_sentences();
    check_words(1, "more than 1,000,000 vertices or elements, or an element list not in fours");
    check_words(2, "a buffer's length doesn't fit n, m and the columns, or the columns told aren't 0, 3 or 4");
    check_words(15, "the side or code named is a border or has a quadrilateral beside it");
    check_words(16, "the text isn't in the form of an OFF file");
    check_words(17, "a face has other than 3 or 4 corners");
    check_words(18, "two elements meet otherwise than at one corner or one edge");
    check_words(19, "n or m would be over 1,000,000, or a buffer other than B2e is too short for the new mesh");
    check_words(20, "the edge's ends have a common neighbour that isn't a third corner of its triangles");
    check_words(21, "a vertex that was used would be left unused");
    check_lengths();
    check_sibling();
}

/* ---- queries of a mesh ---- */

#define LENT(mesh) \
    (mesh)->n, (mesh)->columns, (mesh)->elements, (mesh)->elements_len, (mesh)->v2e, (mesh)->v2e_len, (mesh)->e2e, \
        (mesh)->e2e_len, (mesh)->b2e, (mesh)->b2e_len

static void check_same(const char *name, int same, uint32_t number) {
    progress.calls++;
    if (same)
        return;
    printf("MISMATCH: include/borzhanu.h: borzhanu_mesh_%s of %u isn't borzhanu_%s\n", name, number, name);
    stop();
}

#define CHECK(name, number) \
    check_same(#name, borzhanu_mesh_##name(mesh, number) == borzhanu_##name(LENT(mesh), number), number)

static void check_code_queries(const borzhanu_mesh *mesh, uint32_t code) {
    CHECK(opposite, code);
    CHECK(next, code);
    CHECK(previous, code);
    CHECK(element, code);
    CHECK(origin, code);
    CHECK(destination, code);
    CHECK(across, code);
    CHECK(halfedge_is_border, code);
}

#define CHECK_LIST(name, number)                                                                       \
    do {                                                                                               \
        uint32_t plain[ROOM] = {0}, of_mesh[ROOM] = {0};                                               \
        uint64_t returned = borzhanu_##name(LENT(mesh), number, plain, room);                          \
        int same = borzhanu_mesh_##name(mesh, number, of_mesh, room) == returned;                      \
        check_same(#name, same && memcmp(plain, of_mesh, sizeof plain) == 0, number);                  \
    } while (0)

/* With room for some of the lists. */
static void check_lists(const borzhanu_mesh *mesh, uint32_t number, size_t room) {
    enum { ROOM = 16 };
    CHECK_LIST(ring, number);
    CHECK_LIST(neighbours, number);
    CHECK_LIST(border_loop, number);
}

/* With room for some of the meshes in all three buffers; as `hole` has more, `lengths` has less. */
static void check_holes(const borzhanu_mesh *mesh, uint32_t room) {
    enum { ROOM = 16, WORK_ROOM = 500 };
    const size_t rest = ROOM - room;
    struct {
        uint32_t hole[ROOM], lengths[ROOM], work[WORK_ROOM];
    } plain, of_mesh;
    memset(&plain, 1, sizeof plain);
    memset(&of_mesh, 1, sizeof of_mesh);
    uint64_t returned = borzhanu_holes(LENT(mesh), plain.hole, room, plain.lengths, rest, plain.work, WORK_ROOM);
    int same =
        borzhanu_mesh_holes(mesh, of_mesh.hole, room, of_mesh.lengths, rest, of_mesh.work, WORK_ROOM) == returned;
    check_same("holes", same && memcmp(&plain, &of_mesh, sizeof plain) == 0, room);
}

static int same_walkers(borzhanu_walker a, borzhanu_walker b) {
    return a.start == b.start && a.next == b.next && a.count == b.count;
}

static void check_walkers(const borzhanu_mesh *mesh, uint32_t v) {
    borzhanu_walker plain = {9, 9, 0}, of_mesh = {9, 9, 0};
    uint64_t returned = borzhanu_walker_start(LENT(mesh), v, &plain);
    int same = borzhanu_mesh_walker_start(mesh, v, &of_mesh) == returned;
    check_same("walker_start", same && same_walkers(plain, of_mesh), v);
    for (int steps = 0; steps < 8; steps++) {
        returned = borzhanu_walker_step(LENT(mesh), &plain);
        same = borzhanu_mesh_walker_step(mesh, &of_mesh) == returned;
        check_same("walker_step", same && same_walkers(plain, of_mesh), v);
    }
}

static void check_mesh(const borzhanu_mesh *mesh) {
    uint32_t vertices = mesh->n + 1, borders = (uint32_t)mesh->b2e_len + 1, rows = (uint32_t)mesh->elements_len / 4;
    for (uint32_t code = 0; code <= 8 * (rows + borders); code++)
        check_code_queries(mesh, code);
    for (uint32_t number = 0; number <= vertices || number <= borders; number++) {
        CHECK(vertex_is_border, number);
        check_lists(mesh, number, number % 12);
        check_holes(mesh, number % 17);
        check_walkers(mesh, number);
    }
}

/* Looking fills in the columns where it answers, and returns what borzhanu_columns does. */
static void check_look(borzhanu_mesh *mesh, uint32_t columns) {
    borzhanu_mesh unfit = *mesh;
    uint64_t returned = borzhanu_columns(mesh->n, mesh->elements, mesh->elements_len);
    check_same("look", borzhanu_mesh_look(mesh) == returned && mesh->columns == columns, columns);
    unfit.n = BORZHANU_MAX_VERTICES + 1;
    unfit.columns = 7;
    returned = borzhanu_columns(unfit.n, unfit.elements, unfit.elements_len);
    check_same("look", borzhanu_mesh_look(&unfit) == returned && unfit.columns == 7, unfit.n);
}

static void check_tables(const struct mesh *t) {
    static const uint32_t numbers[] = {0, 3, 4, 5};
    borzhanu_mesh mesh = {.n = t->n, .elements = t->elements.at, .elements_len = t->elements.len, .v2e = t->v2e.at,
                          .v2e_len = t->v2e.len, .e2e = t->e2e.at, .e2e_len = t->e2e.len, .b2e = t->b2e.at,
                          .b2e_len = t->b2e.len};
    check_look(&mesh, columns_of(t->elements));
    for (size_t i = 0; i < sizeof numbers / sizeof *numbers; i++) {
        mesh.columns = numbers[i];
        check_mesh(&mesh);
    }
}

void mesh_functions(struct dice *dice) {
    for (int i = 0; i < 100; i++) {
        struct list list = any_housing(dice, 8);
        struct mesh t;
        if (built(&list, &t)) {
            check_tables(&t);
            drop_tables(&t);
        }
        drop_list(&list);
    }
}
