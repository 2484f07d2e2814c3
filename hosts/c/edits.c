#include "edits.h"

#include "borzhanu.h"
#include "pillows.h"
#include "points.h"
#include "room.h"

#include <stdio.h>
#include <stdlib.h>
#include <string.h>

const enum role lent[MOST_LENT] = {ELEMENTS, V2E, E2E, B2E, WORK, POINTS};

int lent_to(const struct call *call) {
    return call->exported == &swap_call ? MOST_LENT - 1 : MOST_LENT;
}

/* ---- calls ---- */

struct call edit_of(const struct exported *exported, const struct list *list, size_t b2e_len, uint32_t *size,
                    uint32_t code) {
    struct call call = build_of(list, b2e_len);
    call.exported = exported;
    call.number = code;
    size[0] = list->n;
    size[1] = (uint32_t)list->m;
    call.given[SIZE] = (struct slice){size, SIZE_LENGTH};
    return call;
}

size_t length_for(enum role role, size_t columns, size_t n, size_t m) {
    if (role == ELEMENTS)
        return 4 * m;
    if (role == V2E)
        return n;
    if (role == E2E)
        return columns * m;
    return role == WORK ? n + 16 * m : 3 * n;
}

struct call edit_with_points(const struct exported *exported, const struct list *list, struct room room, size_t b2e_len,
                             uint32_t *size, uint32_t code, struct dice *dice) {
    struct call call = edit_of(exported, list, b2e_len, size, code);
    uint32_t columns = columns_of(call.given[ELEMENTS]);
    size_t n = (size_t)list->n + room.vertices, m = list->m + room.elements;
    call.given[POINTS] = (struct slice){NULL, 0};
    own_buffers(&call);
    for (int i = 0; i < MOST_LENT; i++)
        if (lent[i] != B2E && lent[i] != POINTS)
            set_length(&call.given[lent[i]], lent[i], length_for(lent[i], columns, n, m));
    free(call.given[POINTS].at);
    call.given[POINTS] = any_points(length_for(POINTS, columns, n, m), dice);
    return call;
}

void own_buffers(struct call *call) {
    for (int i = 0; i < MOST_LENT; i++)
        call->given[lent[i]] = copied(call->given[lent[i]]);
}

void drop_buffers(struct call *call) {
    for (int i = 0; i < MOST_LENT; i++)
        free(call->given[lent[i]].at);
}

static size_t entries_of_number(enum role role) {
    return role == POINTS ? 2 : 1;
}

void set_length(struct slice *given, enum role role, size_t numbers) {
    struct slice changed = resized(role, *given, numbers * entries_of_number(role));
    free(given->at);
    *given = changed;
}

void change_length(struct slice *given, enum role role, long change) {
    long numbers = (long)(given->len / entries_of_number(role)) + change;
    set_length(given, role, numbers < 0 ? 0 : (size_t)numbers);
}

void lengthen_any(struct call *call, struct dice *dice) {
    for (int i = 0; i < lent_to(call); i++)
        if (below(dice, 2) == 0)
            change_length(&call->given[lent[i]], lent[i], 1 + below(dice, 9));
}

struct call emptied(struct call call) {
    for (int i = 0; i < MOST_LENT; i++)
        call.given[lent[i]].len = 0;
    return call;
}

/* ---- lists and what is left ---- */

struct list list_of(const struct mesh *t) {
    size_t m = t->elements.len / 4;
    return (struct list){t->n, m, m, t->elements.at};
}

struct list list_of_rows(uint32_t n, uint32_t m, const uint32_t (*rows)[4]) {
    return (struct list){n, m, m, (uint32_t *)(void *)rows};
}

static struct slice copied_entries(struct slice s, size_t len) {
    return copied((struct slice){s.at, len});
}

struct mesh mesh_left(const struct slice *results, uint32_t k) {
    size_t n = results[SIZE].at[0], m = results[SIZE].at[1];
    struct slice rows = copied_entries(results[ELEMENTS], 4 * m);
    uint32_t columns = columns_of(rows);
    return (struct mesh){(uint32_t)n,
                         columns,
                         rows,
                         copied_entries(results[V2E], n),
                         copied_entries(results[E2E], columns * m),
                         copied_entries(results[B2E], k)};
}

static int same_entries(struct slice a, struct slice b) {
    return a.len == b.len && (a.len == 0 || memcmp(a.at, b.at, a.len * sizeof(uint32_t)) == 0);
}

static int same_tables(const struct mesh *a, const struct mesh *b) {
    return a->n == b->n && same_entries(a->elements, b->elements) && same_entries(a->v2e, b->v2e) &&
           same_entries(a->e2e, b->e2e) && same_entries(a->b2e, b->b2e);
}

int is_answer(struct answer a, struct answer b) {
    return a.refusal == b.refusal && a.first == b.first && a.second == b.second;
}

void mismatch(const char *what) {
    printf("MISMATCH: family '%s', seed %llu, after %lu calls: %s\n", progress.family,
           (unsigned long long)progress.seed, progress.calls, what);
    stop();
}

void fail_known(const char *name) {
    printf("  the case is '%s'\n", name);
    fail("the answer isn't as worked out");
}

void check_left(const struct mesh *left, const struct list *edited) {
    struct call recovery = recovery_of(left);
    struct slice results[ROLES];
    struct mesh t;
    if (!built(edited, &t) || !same_tables(left, &t))
        mismatch("an edit left other tables than building gives of a copy edited without it");
    if (compare(&recovery, results).refusal != 0 || !same_entries(results[ELEMENTS], left->elements))
        mismatch("an edited list doesn't come back from its tables");
    drop_tables(&t);
}

/* ---- how often each refusal came ---- */

enum { NUMBERS = 22 };

static unsigned long seen[NUMBERS];

struct answer counted(struct answer answer) {
    seen[answer.refusal]++;
    return answer;
}

void check_seen(const uint32_t *numbers, size_t count, unsigned long least) {
    for (size_t i = 0; i < count; i++)
        if (seen[numbers[i]] < least) {
            printf("%lu calls gave %u\n", seen[numbers[i]], numbers[i]);
            mismatch("these are too few");
        }
    memset(seen, 0, sizeof seen);
}

/* ---- lists and codes ---- */

const struct refused_list refused_lists[REFUSED_LISTS] = {
    {"a corner 0", 4, 2, {{1, 2, 3, 0}, {1, 0, 4, 0}}, {3, 2, 2}},
    {"a corner above n", 3, 2, {{1, 2, 3, 0}, {1, 3, 4, 0}}, {3, 2, 3}},
    {"a corner twice", 4, 2, {{1, 2, 3, 0}, {1, 3, 1, 0}}, {4, 2, 3}},
    {"three plates at an edge", 5, 3, {{1, 2, 3, 0}, {1, 3, 4, 0}, {1, 3, 5, 0}}, {6, 1, 3}},
    {"sides alike", 4, 2, {{1, 2, 3, 0}, {1, 2, 4, 0}}, {7, 1, 1}},
    {"two fans", 6, 3, {{1, 2, 3, 0}, {1, 3, 4, 0}, {1, 5, 6, 0}}, {8, 1, 0}},
    {"back to back", 3, 2, {{1, 2, 3, 0}, {1, 3, 2, 0}}, {18, 1, 2}},
    {"a diagonal along a side", 5, 3, {{3, 2, 5, 0}, {1, 2, 3, 0}, {1, 3, 4, 2}}, {18, 1, 3}},
};

const uint32_t some_codes[SOME_CODES] = {0, 4, 8, 9, 10, 11, 12, 16, 17, 18, 19, 20, 32, 40, 48, 4294967295};

enum { ROWS = 4 };

/* A list, a code and what comes of it. */
struct refused_code {
    const char *name;
    uint32_t n, m, rows[ROWS][4], code, refusal;
};

#define LISTING 4, 2, {{1, 2, 3, 0}, {1, 3, 4, 0}}
#define TETRAHEDRON 4, 4, {{1, 2, 3, 0}, {1, 4, 2, 0}, {2, 4, 3, 0}, {3, 4, 1, 0}}
#define MIXED_LIST 5, 2, {{1, 2, 3, 0}, {1, 3, 4, 5}}

static const struct refused_code refused_codes[] = {
    {"code 0", LISTING, 0, 11},
    {"side 1 of element 0", LISTING, 1, 11},
    {"side 7 of element 0", LISTING, 7, 11},
    {"a triangle's fourth side", LISTING, 12, 11},
    {"a triangle's fifth side", LISTING, 13, 11},
    {"a triangle's sixth side", LISTING, 14, 11},
    {"a triangle's seventh side", LISTING, 15, 11},
    {"a quadrilateral's fifth side", MIXED_LIST, 21, 11},
    {"a quadrilateral's seventh side", MIXED_LIST, 23, 11},
    {"a triangle's fourth side beside a quadrilateral", MIXED_LIST, 12, 11},
    {"an element past the last", LISTING, 25, 11},
    {"a border past the last", LISTING, 40, 11},
    {"a border where there is none", TETRAHEDRON, 8, 11},
    {"an element far past the last", LISTING, 8000001, 11},
    {"a side but for its high bit", LISTING, 2147483659, 11},
    {"the greatest border code", LISTING, 4294967288, 11},
    {"the greatest code", LISTING, 4294967295, 11},
    {"code 0 of nothing", 0, 0, {{0}}, 0, 11},
    {"a side of nothing", 0, 0, {{0}}, 9, 11},
    {"a border of vertices alone", 3, 0, {{0}}, 8, 11},
    {"the first border half-edge", LISTING, 8, 15},
    {"a border half-edge with a side's element", LISTING, 16, 15},
    {"the last border half-edge", LISTING, 32, 15},
    {"the border half-edge of a lone triangle", 3, 1, {{1, 2, 3, 0}}, 24, 15},
    {"a quadrilateral's border half-edge", MIXED_LIST, 40, 15},
    {"a quadrilateral beyond", MIXED_LIST, 11, 15},
    {"a quadrilateral on this side", MIXED_LIST, 17, 15},
    {"a quadrilateral's border side", MIXED_LIST, 20, 15},
    {"a lone quadrilateral", 4, 1, {{1, 2, 3, 4}}, 9, 15},
    {"quadrilaterals on both sides", 6, 2, {{1, 2, 3, 4}, {4, 5, 6, 1}}, 12, 15},
};

/* With room and without, also in B2e: 11, 15 and what is said of the old list come before 19 and 9. */
static void check_refused_in_any_room(const struct exported *exported, const char *name, const struct list *list,
                                      uint32_t code, struct answer answer, struct dice *dice) {
    static const struct room rooms[] = {{0, 0}, {1, 0}, {0, 2}, {1, 2}, {7, 9}};
    uint32_t size[SIZE_LENGTH];
    for (size_t i = 0; i < 2 * COUNT(rooms); i++) {
        struct call call = edit_with_points(exported, list, rooms[i / 2], i % 2 == 0 ? 0 : 12, size, code, dice);
        if (!is_answer(compare(&call, NULL), answer))
            fail_known(name);
        drop_buffers(&call);
    }
}

void known_refusals(const struct exported *exported, struct dice *dice) {
    for (size_t i = 0; i < COUNT(refused_codes); i++) {
        const struct refused_code *c = &refused_codes[i];
        struct list list = list_of_rows(c->n, c->m, c->rows);
        check_refused_in_any_room(exported, c->name, &list, c->code, (struct answer){c->refusal, 0, 0}, dice);
    }
    for (size_t i = 0; i < REFUSED_LISTS * SOME_CODES; i++) {
        const struct refused_list *c = &refused_lists[i / SOME_CODES];
        struct list list = list_of_rows(c->n, c->m, c->rows);
        check_refused_in_any_room(exported, c->name, &list, some_codes[i % SOME_CODES], c->answer, dice);
    }
}

uint32_t one_past_codes(const struct list *list) {
    uint32_t most = list->n > list->m ? list->n : (uint32_t)list->m;
    return borzhanu_border(most + 3);
}

void try_every_code(void (*try_code)(const struct list *list, uint32_t code, struct dice *dice), struct dice *dice) {
    for (int i = 0; i < 300; i++) {
        struct list list = i % 3 == 0 ? any_pillow(dice, 8) : any_housing(dice, 8);
        disguise(&list, dice);
        if (i % 2 == 0)
            damage_list(&list, dice);
        for (uint32_t code = 0; code < one_past_codes(&list); code++)
            try_code(&list, code, dice);
        /* codes that would be those of the list if fewer of their bits were read */
        for (uint32_t bit = 31; bit > 15; bit--)
            try_code(&list, ((uint32_t)1 << bit) + below(dice, one_past_codes(&list)), dice);
        for (uint32_t code = 0; code < 8; code++)
            try_code(&list, UINT32_MAX - code, dice);
        drop_list(&list);
    }
}

void run_on_housings(uint32_t size, int edits, void (*run)(struct list list, int edits, struct dice *dice),
                     struct dice *dice) {
    struct list spare = sheet(size, size, 0, 0, TRIANGLES, dice);
    add_spare(&spare, below(dice, spare.n + 1), size);
    run(spare, edits, dice);
    run(fan(2 * size, 1), edits, dice);
    run(bipyramid(2 * size), edits, dice);
    run(sheet(size + 2, size, 1, 0, TRIANGLES, dice), edits, dice);
    run(sheet(size + 2, size + 2, 1, 1, TRIANGLES, dice), edits, dice);
    run(sheet(size + 2, size, 1, 0, MIXED, dice), edits, dice);
    run(sheet(size + 2, size + 2, 1, 1, MIXED, dice), edits, dice);
}

uint32_t any_inner_side(const struct mesh *t, struct dice *dice) {
    uint32_t m = (uint32_t)(t->elements.len / 4), side = 0;
    for (int tries = 0; tries < 12; tries++) {
        side = borzhanu_side(1 + below(dice, m), 1 + below(dice, 3));
        uint32_t opposite = t->e2e.at[t->columns * (borzhanu_element_of(side) - 1) + borzhanu_number_of(side) - 1];
        if (!borzhanu_is_border_code(opposite) && t->elements.at[4 * borzhanu_element_of(side) - 1] == 0 &&
            t->elements.at[4 * borzhanu_element_of(opposite) - 1] == 0)
            break;
    }
    return side;
}

/* ---- lengths ---- */

void try_longer(const struct call *call, struct dice *dice) {
    struct answer answer = counted(compare(call, NULL));
    for (unsigned longer = 1; longer < 1u << lent_to(call); longer++) {
        struct call other = *call;
        own_buffers(&other);
        for (int i = 0; i < lent_to(call); i++)
            if (longer >> i & 1)
                change_length(&other.given[lent[i]], lent[i], 1 + below(dice, 9));
        compare_answer(&other, answer);
        drop_buffers(&other);
    }
}

void try_other_lengths(const struct call *call, struct dice *dice) {
    static const long changes[] = {-20, -4, -1, 0, 1, 4};
    uint32_t *size = call->given[SIZE].at, n = size[0], m = size[1];
    size_t count = (size_t)lent_to(call);
    for (size_t i = 0; i < count * count; i++)
        for (size_t j = 0; j < COUNT(changes) * COUNT(changes); j++) {
            enum role a = lent[i % count], b = lent[i / count];
            struct call other = *call;
            own_buffers(&other);
            change_length(&other.given[a], a, changes[j % COUNT(changes)]);
            change_length(&other.given[b], b, changes[j / COUNT(changes)]);
            size[0] = n + (below(dice, 8) == 0 ? below(dice, 3) - 1 : 0);
            size[1] = m + (below(dice, 8) == 0 ? below(dice, 3) - 1 : 0);
            counted(compare(&other, NULL));
            drop_buffers(&other);
        }
    size[0] = n;
    size[1] = m;
}

void try_far_lengths(const struct call *call) {
    for (int i = 0; i < lent_to(call); i++)
        if (lent[i] != WORK)
            compare_far(call, lent[i]);
}

void try_empty_buffers(struct call call) {
    static const uint32_t codes[] = {0, 8, 9, 11};
    for (size_t i = 0; i < COUNT(codes); i++) {
        call.number = codes[i];
        struct call all = emptied(call);
        compare_with(&all, call.given[SIZE].at[0] == 0 ? 11 : 2, 0);
        for (int j = 0; j < lent_to(&call); j++) {
            struct call one = call;
            one.given[lent[j]].len = 0;
            compare(&one, NULL);
        }
    }
}

void check_sizes(const struct call *call) {
    enum { MOST_N = BORZHANU_MAX_VERTICES, MOST_M = BORZHANU_MAX_ELEMENTS };
    /* in 32 bits the last of these would have a list of eight entries, and the one before points of 14 numbers */
    static const uint32_t sizes[][SIZE_LENGTH + 1] = {
        {MOST_N, 2, 2},     {4, MOST_M, 2},         {MOST_N, MOST_M, 2}, {MOST_N + 1, 2, 1}, {4, MOST_M + 1, 1},
        {MOST_N + 1, 0, 1}, {0, MOST_M + 1, 1},     {MOST_N + 1, MOST_M + 1, 1},
        {UINT32_MAX, 2, 1}, {4, UINT32_MAX, 1},     {0x5555555A, 2, 1},  {4, 0x40000002, 1},
    };
    struct call none = emptied(*call);
    for (size_t i = 0; i < COUNT(sizes); i++) {
        memcpy(call->given[SIZE].at, sizes[i], SIZE_LENGTH * sizeof(uint32_t));
        compare_with(call, sizes[i][SIZE_LENGTH], 0);
        compare_with(&none, sizes[i][SIZE_LENGTH], 0);
    }
}
