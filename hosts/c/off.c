#include "off.h"

#include "borzhanu.h"
#include "edits.h"
#include "guarded.h"
#include "off_texts.h"
#include "room.h"

#include <stdlib.h>
#include <string.h>

/* The list lent has so many entries. */
static struct answer read_text(struct text text, size_t room, struct slice *results) {
    struct call call = reading_of(text, room);
    return counted(compare(&call, results));
}

static void check_read(struct text text, size_t room, struct answer known) {
    struct call call = reading_of(text, room);
    compare_answer(&call, counted(known));
}

static int is_read(struct answer answer, const struct slice *results, const struct list *list) {
    size_t bytes = 4 * list->m * sizeof(uint32_t);
    return is_answer(answer, (struct answer){0, list->n, (uint32_t)list->m}) &&
           (bytes == 0 || memcmp(results[ELEMENTS].at, list->rows, bytes) == 0);
}

/* ---- worked out by hand ---- */

enum { ROWS = 2 };

/* A text, how many entries the list has, and what is answered; where that is no refusal, the rows. */
static const struct known {
    const char *name;
    struct text text;
    size_t room;
    struct answer answer;
    uint32_t rows[ROWS][4];
} known[] = {
#define TEXT(words) {(const uint8_t *)(words), sizeof(words) - 1}
#define POINTS_OF_3 "0 0 0\n1 0 0\n0 1 0\n"
#define TRIANGLE .answer = {0, 3, 1}, .rows = {{1, 2, 3, 0}}
#define BAD(line) .room = 8, .answer = {16, line, 0}
    {"a triangle", TEXT("OFF\n3 1 3\n" POINTS_OF_3 "3 0 1 2\n"), 4, TRIANGLE},
    {"a triangle on one line", TEXT("OFF 3 1 3 0 0 0 1 0 0 0 1 0 3 0 1 2"), 7, TRIANGLE},
    {"a triangle, an item to a line", TEXT("OFF\n3\n1\n3\n0\n0\n0\n1\n0\n0\n0\n1\n0\n3\n0\n1\n2"), 4, TRIANGLE},
    {"returns and newlines", TEXT("OFF\r\n3 1 3\r\n0 0 0\r\n1 0 0\r\n0 1 0\r\n3 0 1 2\r\n"), 4, TRIANGLE},
    {"tabs and returns alone", TEXT("\rOFF\t3\r1\t\t3\r0 0 0\r1 0 0\r0 1 0\r3\t0\t1\t2\r"), 5, TRIANGLE},
    {"comments", TEXT("# a\n\nOFF#b\n3#\n1 3#c # d\n" POINTS_OF_3 "# 3 0 1 2\n3 0 1#OFF\r\n2#e"), 4, TRIANGLE},
    {"leading zeros", TEXT("OFF 0000003 001 0\n" POINTS_OF_3 "0000003 0000000 01 0000002"), 4, TRIANGLE},
    {"decimal numbers", TEXT("OFF 3 1 3 -0 007 +1.50 -12.000 0.0 +0 99999999.123456789 1 -1 3 0 1 2"), 4, TRIANGLE},
    {"a triangle after a quadrilateral", TEXT("OFF 0 2 0 4 4 3 2 1 3 0 0 0"), .room = 9, .answer = {0, 0, 2},
     .rows = {{5, 4, 3, 2}, {1, 1, 1, 0}}},
    {"corners above the vertex count", TEXT("OFF 1 1 0 0 0 0 4 1 9999999 0 1000000"), .room = 4, .answer = {0, 1, 1},
     .rows = {{2, 10000000, 1, 1000001}}},
    {"no vertex and no face", TEXT("OFF 0 0 0"), .room = 0, .answer = {0, 0, 0}},
    {"vertices alone", TEXT("OFF 2 0 0 1 2 3 4 5 6\n"), .room = 0, .answer = {0, 2, 0}},
    {"the largest edge count", TEXT("OFF 0 0 9999999"), .room = 3, .answer = {0, 0, 0}},
    /* 16 */
    {"nothing", TEXT(""), BAD(1)},
    {"nothing, and no list", TEXT(""), .room = 0, .answer = {16, 1, 0}},
    {"a newline", TEXT("\n"), BAD(2)},
    {"a comment alone", TEXT("# OFF 0 0 0"), BAD(1)},
    {"a return in a comment", TEXT("OFF 0 0\n# x\r0"), BAD(2)},
    {"small letters", TEXT("\noff 0 0 0"), BAD(2)},
    {"no blank after the word", TEXT("OFF0 0 0"), BAD(1)},
    {"the word after another", TEXT("ST OFF 0 0 0"), BAD(1)},
    {"no edge count", TEXT("OFF 0 0\n\n"), BAD(3)},
    {"a sign before a count", TEXT("OFF 0\n+0 0"), BAD(2)},
    {"eight digits", TEXT("OFF 0\n0\n00000000"), BAD(3)},
    {"a coordinate missing", TEXT("OFF 1 0 0\n1 2\n"), BAD(3)},
    {"an exponent", TEXT("OFF 1 0 0\n1 2\n1e3"), BAD(3)},
    {"a point without digits before it", TEXT("OFF 1 0 0\n1 .5\n2"), BAD(2)},
    {"a point without digits after it", TEXT("OFF 1 0 0\n1 5.\n2"), BAD(2)},
    {"a corner with a point", TEXT("OFF 0 1 0\n3 0 1.0 2"), BAD(2)},
    {"a corner missing", TEXT("OFF 0 1 0\n3 0 1 # 2\n"), BAD(3)},
    {"a face missing", TEXT("OFF 0 2 0\n3 0 1 2"), BAD(2)},
    {"as many faces as can be counted", TEXT("OFF 0 9999999 0"), BAD(1)},
    {"an item past the last face", TEXT("OFF 0 1 0\n3 0 1 2\n\n7"), BAD(4)},
    {"a zero byte after the last face", TEXT("OFF 0 0 0\n\0"), BAD(2)},
    {"a zero byte for a blank", TEXT("OFF 0\0" "0 0"), BAD(1)},
    {"16 before 17", TEXT("OFF 0 2 0 2 0 1\n3 0 1 x"), BAD(2)},
    /* colours */
    {"a colour after the last face", TEXT("OFF 0 1 0\n3 0 1 2 255 0 0\n"), BAD(2)},
    {"a colour after each face", TEXT("OFF 0 2 0\n3 0 1 2 4\n3 5 6 7 4\n"), BAD(3)},
    {"a colour after the first face alone", TEXT("OFF 0 2 0\n3 0 1 2 4\n3 5 6 7\n"), .room = 8, .answer = {0, 0, 2},
     .rows = {{1, 2, 3, 0}, {4, 6, 7, 8}}},
    /* 17 and 13 */
    {"a face without corners", TEXT("OFF 0 1 0 0"), .room = 4, .answer = {17, 1, 0}},
    {"a face with five corners", TEXT("OFF 0 2 0 3 0 1 2 5 0 1 2 3 4"), .room = 8, .answer = {17, 2, 0}},
    {"two unfit faces", TEXT("OFF 0 3 0 3 0 1 2 2 0 1 1 0"), .room = 12, .answer = {17, 2, 0}},
    {"17 before 13", TEXT("OFF 0 2 0 3 0 1 2 2 0 1"), .room = 0, .answer = {17, 2, 0}},
    {"one entry too few", TEXT("OFF 0 2 0 3 0 1 2 3 0 1 2"), .room = 7, .answer = {13, 8, 0}},
    {"no entry", TEXT("OFF 0 1 0 3 0 1 2"), .room = 0, .answer = {13, 4, 0}},
};

static void check_known(const struct known *c) {
    struct list list = list_of_rows(c->answer.first, c->answer.second, c->rows);
    struct slice results[ROLES];
    struct answer answer = read_text(c->text, c->room, results);
    if (!is_answer(answer, c->answer) || (answer.refusal == 0 && !is_read(answer, results, &list)))
        fail_known(c->name);
}

void known_offs(struct dice *dice) {
    static const uint32_t numbers[] = {0, 13, 16, 17};
    (void)dice;
    for (size_t i = 0; i < COUNT(known); i++)
        check_known(&known[i]);
    check_seen(numbers, COUNT(numbers), 2);
}

/* ---- texts of lists ---- */

/* Some corners are any that an OFF file can name. */
static void name_any_corners(struct list *list, struct dice *dice) {
    for (size_t f = 0; f < list->m; f++)
        if (below(dice, 8) == 0)
            list->rows[4 * f + below(dice, corners_of(list->rows + 4 * f))] = 1 + below(dice, 10000000);
}

static void check_text_of(const struct list *list, struct text text, size_t room) {
    struct slice results[ROLES];
    struct answer answer = read_text(text, room, results), too_short = {13, 4 * (uint32_t)list->m, 0};
    if (room < 4 * list->m ? !is_answer(answer, too_short) : !is_read(answer, results, list))
        fail("the list isn't the one that the text was made of");
}

/* The n and the list that were read are handed to building. */
static void build_read(struct text text, size_t m) {
    struct slice results[ROLES];
    struct mesh t;
    struct answer answer = read_text(text, 4 * m, results);
    struct slice rows = copied(results[ELEMENTS]);
    struct list list = {answer.first, answer.second, answer.second, rows.at};
    if (built(&list, &t))
        drop_tables(&t);
    free(rows.at);
}

/* Two texts of the same list, both with any length of the buffer that is near to the one needed. */
static void check_texts_of(const struct list *list, struct dice *dice) {
    for (int i = 0; i < 2; i++) {
        struct draft draft = draft_of(list, dice);
        struct bytes bytes = joined(&draft, NULL, dice);
        struct text text = text_of(&bytes);
        for (size_t room = 4 * list->m < 6 ? 0 : 4 * list->m - 6; room <= 4 * list->m + 6; room++)
            check_text_of(list, text, room);
        if (i == 0)
            build_read(text, list->m);
        drop_bytes(&bytes);
        drop_draft(&draft);
    }
}

void offs_of_lists(struct dice *dice) {
    static const uint32_t numbers[] = {0, 13};
    for (int i = 0; i < 800; i++) {
        struct list list = any_housing(dice, i % 20 == 0 ? 300 : 20);
        if (i % 2 == 0)
            disguise(&list, dice);
        if (i % 3 == 0)
            name_any_corners(&list, dice);
        check_texts_of(&list, dice);
        drop_list(&list);
    }
    check_seen(numbers, COUNT(numbers), 1000);
}

/* ---- faces ---- */

enum { MOST_FACES = 20 };

/* 3 or 4, or now and then another number. */
static uint32_t any_corner_count(struct dice *dice) {
    uint32_t bound = below(dice, 10) == 0 ? 60 : 10;
    return below(dice, 12) == 0 ? below(dice, bound) : 3 + below(dice, 2);
}

static struct answer answer_of(uint32_t n, uint32_t m, const uint32_t *corners, size_t room) {
    for (uint32_t f = 1; f <= m; f++)
        if (corners[f - 1] != 3 && corners[f - 1] != 4)
            return (struct answer){17, f, 0};
    return room < 4 * m ? (struct answer){13, 4 * m, 0} : (struct answer){0, n, m};
}

void faces_of_offs(struct dice *dice) {
    static const uint32_t numbers[] = {0, 13, 17};
    for (int i = 0; i < 3000; i++) {
        uint32_t n = below(dice, 6), m = below(dice, MOST_FACES + 1), corners[MOST_FACES];
        size_t room = below(dice, 4) == 0 ? below(dice, 4 * m + 1) : 4 * m + below(dice, 3);
        for (uint32_t f = 0; f < m; f++)
            corners[f] = any_corner_count(dice);
        struct draft draft = draft_of_faces(n, m, corners, dice);
        struct bytes bytes = joined(&draft, NULL, dice);
        check_read(text_of(&bytes), room, answer_of(n, m, corners, room));
        drop_bytes(&bytes);
        drop_draft(&draft);
    }
    check_seen(numbers, COUNT(numbers), 50);
}

/* ---- bad items ---- */

static void check_bad(const struct draft *draft, size_t bad, struct dice *dice) {
    uint32_t *lines = room_for(draft->count + 1, sizeof *lines);
    struct bytes bytes = joined(draft, lines, dice);
    check_read(text_of(&bytes), 4 * MOST_FACES, (struct answer){16, lines[bad], 0});
    drop_bytes(&bytes);
    free(lines);
}

static void check_written(struct draft *draft, size_t at, const char *const *others, struct dice *dice) {
    char *kept = draft->items[at];
    for (; *others != NULL; others++) {
        draft->items[at] = (char *)*others;
        check_bad(draft, at, dice);
    }
    draft->items[at] = kept;
}

static void check_items(struct draft *draft, uint32_t n, struct dice *dice) {
    check_written(draft, 0, no_words, dice);
    for (size_t at = 1; at < draft->count; at++)
        check_written(draft, at, at >= 4 && at < start_of_faces(n) ? no_decimals : no_wholes, dice);
    insert_item(draft, draft->count, below(dice, 2) == 0 ? "0" : "x");
    check_bad(draft, draft->count - 1, dice);
    take_item_out(draft, draft->count - 1);
    take_item_out(draft, draft->count - 1);
    check_bad(draft, draft->count, dice);
}

/* Among the faces is one with two corners or five, before the bad item or after it; or there is none. */
void bad_items_of_offs(struct dice *dice) {
    static const uint32_t numbers[] = {16}, corners[][3] = {{3, 4, 3}, {2, 4, 3}, {3, 4, 5}};
    for (uint32_t i = 0; i < 24; i++) {
        uint32_t n = i / 3 % 4, m = i / 12 + 2;
        struct draft draft = draft_of_faces(n, m, corners[i % 3], dice);
        check_items(&draft, n, dice);
        drop_draft(&draft);
    }
    check_seen(numbers, COUNT(numbers), 10000);
}

/* ---- bytes ---- */

static const char small[] = "# x\nOFF 3 2\t3\r\n0 -1.5 +2\n1 0 0 7 8 9# y\n3 0 1 2\n4 2 1 0 3\n";

enum { SMALL = sizeof small - 1, SMALL_LIST = 8 };

/* The byte in the place of the one there, and before it. */
static void try_byte_at(size_t at, uint8_t byte) {
    uint8_t text[SMALL + 1];
    memcpy(text, small, SMALL);
    text[at] = byte;
    read_text((struct text){text, SMALL}, SMALL_LIST, NULL);
    memcpy(text + at + 1, small + at, SMALL - at);
    read_text((struct text){text, SMALL + 1}, SMALL_LIST, NULL);
}

void bytes_of_offs(struct dice *dice) {
    static const uint32_t numbers[] = {0, 16, 17};
    const uint8_t *text = (const uint8_t *)small;
    (void)dice;
    for (uint32_t byte = 0; byte < 256; byte++) {
        uint8_t alone = (uint8_t)byte;
        check_read((struct text){&alone, 1}, 0, (struct answer){16, byte == '\n' ? 2 : 1, 0});
        for (size_t at = 0; at < SMALL; at++)
            try_byte_at(at, alone);
    }
    for (size_t at = 0; at <= SMALL; at++) {
        read_text((struct text){text, at}, SMALL_LIST, NULL);
        read_text((struct text){text + at, SMALL - at}, SMALL_LIST, NULL);
    }
    check_seen(numbers, COUNT(numbers), 2);
}

/* ---- slips ---- */

static struct bytes any_damaged(struct dice *dice) {
    uint32_t m = below(dice, 6), corners[MOST_FACES];
    for (uint32_t f = 0; f < m; f++)
        corners[f] = any_corner_count(dice);
    struct draft draft = draft_of_faces(below(dice, 5), m, corners, dice);
    for (uint32_t slips = below(dice, 3); slips > 0; slips--)
        damage_items(&draft, dice);
    struct bytes bytes = joined(&draft, NULL, dice);
    for (uint32_t slips = below(dice, 3); slips > 0; slips--)
        damage_bytes(&bytes, dice);
    drop_draft(&draft);
    return bytes;
}

void damaged_offs(struct dice *dice) {
    static const uint32_t numbers[] = {0, 13, 16, 17};
    for (int i = 0; i < 60000; i++) {
        struct bytes bytes = any_damaged(dice);
        read_text(text_of(&bytes), below(dice, 30), NULL);
        drop_bytes(&bytes);
    }
    check_seen(numbers, COUNT(numbers), 100);
}

/* ---- the largest sizes ---- */

enum { MOST = BORZHANU_MAX_VERTICES, LARGEST = 9999999 };

/* It is dropped. */
static void check_large(struct bytes bytes, size_t room, struct answer known) {
    static const double allowed = 5;
    struct call call = reading_of(text_of(&bytes), room);
    check_read(text_of(&bytes), room, known);
    check_time(&call, 1, allowed);
    drop_bytes(&bytes);
}

/* A head, other words so many times, and an end. */
static struct bytes repeated(const char *head, const char *words, size_t times, const char *end) {
    struct bytes bytes = no_bytes();
    add_words(&bytes, head, 1);
    add_words(&bytes, words, times);
    add_words(&bytes, end, 1);
    return bytes;
}

static void largest_counts(void) {
    check_large(repeated("OFF 1000000 0 0\n", "1 2 3\n", MOST, ""), 0, (struct answer){0, MOST, 0});
    check_large(repeated("OFF 1000001 0 0\n", "1 2 3\n", MOST + 1, ""), 0, (struct answer){1, 0, 0});
    check_large(repeated("OFF 1000001 0 0\n", "1 2 3\n", MOST, "1 2\n"), 0, (struct answer){16, MOST + 3, 0});
    check_large(repeated("OFF 1000001 0 0\n", "1 2 3\n", MOST + 1, "4"), 0, (struct answer){16, MOST + 3, 0});
    check_large(repeated("OFF 1000001 1 0\n", "1 2 3\n", MOST + 1, "2 0 1"), 0, (struct answer){1, 0, 0});
    check_large(repeated("OFF 0 1000000 0\n", "3 0 1 2\n", MOST, ""), 4 * MOST + 1, (struct answer){0, 0, MOST});
    check_large(repeated("OFF 0 1000000 0\n", "3 0 1 2\n", MOST, ""), 4 * MOST - 1, (struct answer){13, 4 * MOST, 0});
    check_large(repeated("OFF 0 1000000 0\n", "3 0 1 2\n", MOST - 1, "2 0 1"), 0, (struct answer){17, MOST, 0});
    check_large(repeated("OFF 0 1000001 0\n", "3 0 1 2\n", MOST + 1, ""), 4 * MOST + 4, (struct answer){1, 0, 0});
    check_large(repeated("OFF 0 1000001 0\n2 0 1\n", "3 0 1 2\n", MOST, ""), 0, (struct answer){1, 0, 0});
    check_large(repeated("OFF 0 1000001 0\n", "3 0 1 2\n", MOST, "3 0 1"), 0, (struct answer){16, MOST + 2, 0});
    check_large(repeated("OFF 0 1 0\n9999999", " 0", LARGEST, "\n"), 4, (struct answer){17, 1, 0});
    check_large(repeated("OFF 0 1 0\n9999999", " 0", LARGEST - 1, "\n"), 4, (struct answer){16, 3, 0});
}

static void long_stretches(void) {
    enum { LONG = 10000000 };
    check_large(repeated("", " ", LONG, ""), 0, (struct answer){16, 1, 0});
    check_large(repeated("", "\n", LONG, ""), 0, (struct answer){16, LONG + 1, 0});
    check_large(repeated("OFF 0 0", "\r\n", LONG / 2, "0"), 0, (struct answer){0, 0, 0});
    check_large(repeated("#", "x", LONG, ""), 0, (struct answer){16, 1, 0});
    check_large(repeated("OFF 0 0 0#", "#", LONG, "\n"), 0, (struct answer){0, 0, 0});
    check_large(repeated("OFF 0 0 0", "#\n", LONG / 2, "0"), 0, (struct answer){16, LONG / 2 + 1, 0});
    check_large(repeated("OFF 1 0 0 1 2 -", "0", LONG, ""), 0, (struct answer){0, 1, 0});
    check_large(repeated("OFF 1 0 0 1 2 0.", "7", LONG, ""), 0, (struct answer){0, 1, 0});
    check_large(repeated("OFF 1 0 0 1 2 0.", "7", LONG, "."), 0, (struct answer){16, 1, 0});
    check_large(repeated("OFF 0 0 ", "0", LONG, ""), 0, (struct answer){16, 1, 0});
    check_large(repeated("OFF 0 0 ", "0 ", LONG, ""), 0, (struct answer){16, 1, 0});
    check_large(repeated("", "x", LONG, ""), 0, (struct answer){16, 1, 0});
}

void largest_offs(struct dice *dice) {
    static const uint32_t numbers[] = {0, 1, 13, 16, 17};
    (void)dice;
    largest_counts();
    long_stretches();
    check_seen(numbers, COUNT(numbers), 1);
}

/* ---- lines and lengths past their bounds ---- */

/* Newlines alone: the word is missing on the line after them. 2^32 of them take some seconds. */
static void refuse_lines(const uint8_t *newlines, size_t count, uint32_t line) {
    struct call call = reading_of((struct text){newlines, count}, 4);
    refuse_far_text(&call, (struct answer){16, line, 0});
}

void far_offs(struct dice *dice) {
    static const char triangle[] = "OFF 0 1 0 3 0 1 2";
    const size_t past = (size_t)1 << 32, greatest = (1 << 28) - 1;
    const uint8_t *newlines = run_of_bytes('\n', past + 9);
    struct call call = reading_of((struct text){(const uint8_t *)triangle, sizeof triangle - 1}, 6);
    (void)dice;
    for (size_t line = greatest - 1; line <= greatest + 2; line++)
        refuse_lines(newlines, line - 1, (uint32_t)(line < greatest ? line : greatest));
    refuse_lines(newlines, past + 9, (uint32_t)greatest);
    compare_far(&call, ELEMENTS);
}
