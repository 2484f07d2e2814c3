#include "off_texts.h"

#include "room.h"

#include <stdio.h>
#include <stdlib.h>
#include <string.h>

/* ---- bytes ---- */

struct bytes no_bytes(void) {
    enum { ROOM = 256 };
    return (struct bytes){room_for(ROOM, 1), 0, ROOM, 1};
}

void drop_bytes(struct bytes *bytes) {
    free(bytes->at);
}

struct text text_of(const struct bytes *bytes) {
    return (struct text){bytes->at, bytes->len};
}

void add_byte(struct bytes *bytes, uint8_t byte) {
    if (bytes->len == bytes->room) {
        uint8_t *larger = room_for(2 * bytes->room, 1);
        memcpy(larger, bytes->at, bytes->len);
        free(bytes->at);
        bytes->at = larger;
        bytes->room *= 2;
    }
    bytes->at[bytes->len++] = byte;
    bytes->line += byte == '\n';
}

void add_words(struct bytes *bytes, const char *words, size_t times) {
    while (times-- > 0)
        for (const char *at = words; *at != '\0'; at++)
            add_byte(bytes, (uint8_t)*at);
}

/* ---- items ---- */

static char *copy_of(const char *item) {
    size_t bytes = strlen(item) + 1;
    return memcpy(room_for(bytes, 1), item, bytes);
}

void insert_item(struct draft *draft, size_t at, const char *item) {
    if (draft->count == draft->room) {
        char **larger = room_for(2 * draft->room + 8, sizeof *larger);
        if (draft->count != 0)
            memcpy(larger, draft->items, draft->count * sizeof *larger);
        free(draft->items);
        draft->items = larger;
        draft->room = 2 * draft->room + 8;
    }
    memmove(draft->items + at + 1, draft->items + at, (draft->count - at) * sizeof *draft->items);
    draft->items[at] = copy_of(item);
    draft->count++;
}

void take_item_out(struct draft *draft, size_t at) {
    free(draft->items[at]);
    draft->count--;
    memmove(draft->items + at, draft->items + at + 1, (draft->count - at) * sizeof *draft->items);
}

void drop_draft(struct draft *draft) {
    for (size_t i = 0; i < draft->count; i++)
        free(draft->items[i]);
    free(draft->items);
}

static void add_item(struct draft *draft, const char *item) {
    insert_item(draft, draft->count, item);
}

/* With leading zeros now and then, up to seven digits in all. */
static void add_whole(struct draft *draft, uint32_t number, struct dice *dice) {
    char item[16];
    snprintf(item, sizeof item, "%0*u", below(dice, 3) == 0 ? (int)below(dice, 8) : 1, number);
    add_item(draft, item);
}

static char *put_digits(char *at, uint32_t most, struct dice *dice) {
    for (uint32_t count = 1 + below(dice, most); count > 0; count--)
        *at++ = (char)('0' + below(dice, 10));
    return at;
}

static void add_decimal(struct draft *draft, struct dice *dice) {
    enum { FEW = 6, MANY = 300 };
    uint32_t most = below(dice, 40) == 0 ? MANY : FEW, sign = below(dice, 4);
    char item[2 * MANY + 3], *at = item;
    if (sign < 2)
        *at++ = "+-"[sign];
    at = put_digits(at, most, dice);
    if (below(dice, 2) == 0) {
        *at++ = '.';
        at = put_digits(at, most, dice);
    }
    *at = '\0';
    add_item(draft, item);
}

/* All items up to the first face. */
static struct draft draft_of_vertices(uint32_t n, size_t m, struct dice *dice) {
    struct draft draft = {0, 0, NULL};
    add_item(&draft, "OFF");
    add_whole(&draft, n, dice);
    add_whole(&draft, (uint32_t)m, dice);
    add_whole(&draft, below(dice, 10000000), dice);
    for (uint32_t i = 0; i < 3 * n; i++)
        add_decimal(&draft, dice);
    return draft;
}

size_t start_of_faces(uint32_t n) {
    return 4 + 3 * (size_t)n;
}

struct draft draft_of(const struct list *list, struct dice *dice) {
    struct draft draft = draft_of_vertices(list->n, list->m, dice);
    for (size_t f = 0; f < list->m; f++) {
        const uint32_t *row = list->rows + 4 * f;
        add_whole(&draft, corners_of(row), dice);
        for (uint32_t i = 0; i < corners_of(row); i++)
            add_whole(&draft, row[i] - 1, dice);
    }
    return draft;
}

struct draft draft_of_faces(uint32_t n, size_t m, const uint32_t *corners, struct dice *dice) {
    struct draft draft = draft_of_vertices(n, m, dice);
    for (size_t f = 0; f < m; f++) {
        add_whole(&draft, corners[f], dice);
        for (uint32_t i = 0; i < corners[f]; i++)
            add_whole(&draft, below(dice, below(dice, 8) == 0 ? 10000000 : n + 1), dice);
    }
    return draft;
}

/* ---- what is between them ---- */

static void add_comment(struct bytes *bytes, struct dice *dice) {
    add_byte(bytes, '#');
    for (uint32_t count = below(dice, 12); count > 0; count--) {
        uint8_t byte = (uint8_t)below(dice, 256);
        add_byte(bytes, byte == '\n' ? '#' : byte);
    }
}

static void add_gap(struct bytes *bytes, struct dice *dice) {
    static const char *const blanks[] = {" ", " ", "\t", "\r", "\n", "\n", "\r\n"};
    do {
        if (below(dice, 12) == 0) {
            add_comment(bytes, dice);
            add_byte(bytes, '\n');
        } else {
            add_words(bytes, blanks[below(dice, COUNT(blanks))], 1);
        }
    } while (below(dice, 3) == 0);
}

struct bytes joined(const struct draft *draft, uint32_t *lines, struct dice *dice) {
    struct bytes bytes = no_bytes();
    for (size_t i = 0; i <= draft->count; i++) {
        int at_an_end = i == 0 || i == draft->count;
        if (!at_an_end || below(dice, 2) == 0)
            add_gap(&bytes, dice);
        if (lines != NULL)
            lines[i] = bytes.line;
        if (i < draft->count)
            add_words(&bytes, draft->items[i], 1);
    }
    if (below(dice, 4) == 0)
        add_comment(&bytes, dice);
    return bytes;
}

/* ---- slips ---- */

#define NO_NUMBERS \
    "+", "-", ".", "+.", "-.5", "--1", "+-1", "-+1", ".5", "5.", "+5.", "1.2.3", "1..2", "1.-2", "1.+2", "1e3", "1E3", \
        "1e+3", "1.5e", "1,5", "1;", "0x1", "1f", "nan", "inf", "OFF", "x", "/", ":", "1/", "1:", "1\v", "\f1", \
        "\x01", "1\x08", "1\x1f", "\x7f", "1\x80", "\xa0" "1", "\xb2", "\xff"

const char *const no_words[] = {"OF",     "OFFX", "OFF\v", "OFF\xff", "off", "Off", "0FF", "FFO",  "OOFF",
                                "OF\x01", "COFF", "NOFF",  "4OFF",    "O",   "FF",  "3",   "\xff", NULL};
const char *const no_wholes[] = {NO_NUMBERS, "12345678", "00000003", "10000000", "99999999", "000000000000003",
                                 "18446744073709551619", "+3", "-3", "-0", "3.0", "0.0", "3-", "3+", NULL};
const char *const no_decimals[] = {NO_NUMBERS, "1-", "1+", "1.5-", "1.5.", "+1.", "1.x", "1.5x", "-x", NULL};

static void exchange(struct draft *draft, size_t a, size_t b) {
    char *kept = draft->items[a];
    draft->items[a] = draft->items[b];
    draft->items[b] = kept;
}

/* One that is no number becomes one. */
static void change_number(struct draft *draft, size_t at, struct dice *dice) {
    char item[32];
    long number = strtol(draft->items[at], NULL, 10) % 10000000;
    snprintf(item, sizeof item, "%ld", below(dice, 2) == 0 ? number + 1 : number - 1);
    take_item_out(draft, at);
    insert_item(draft, at, item);
}

static const char *any_of(const char *const *items, struct dice *dice) {
    uint32_t count = 0;
    while (items[count] != NULL)
        count++;
    return items[below(dice, count)];
}

void damage_items(struct draft *draft, struct dice *dice) {
    const char *const *const others[] = {no_words, no_wholes, no_decimals};
    uint32_t count = (uint32_t)draft->count;
    size_t at = below(dice, 4) == 0 ? below(dice, 4) : below(dice, count);
    if (at >= draft->count)
        return;
    switch (below(dice, 5)) {
    case 0:
        take_item_out(draft, at);
        break;
    case 1:
        insert_item(draft, at, draft->items[at]);
        break;
    case 2:
        exchange(draft, at, below(dice, count));
        break;
    case 3:
        take_item_out(draft, at);
        insert_item(draft, at, any_of(others[below(dice, COUNT(others))], dice));
        break;
    default:
        change_number(draft, at, dice);
    }
}

static void take_byte_out(struct bytes *bytes, size_t at) {
    bytes->len--;
    memmove(bytes->at + at, bytes->at + at + 1, bytes->len - at);
}

static void insert_byte(struct bytes *bytes, size_t at, uint8_t byte) {
    add_byte(bytes, 0);
    memmove(bytes->at + at + 1, bytes->at + at, bytes->len - 1 - at);
    bytes->at[at] = byte;
}

void damage_bytes(struct bytes *bytes, struct dice *dice) {
    static const uint8_t meant[] = " \t\r\n\v#+-.0123456789OFFe";
    uint8_t byte = below(dice, 2) == 0 ? (uint8_t)below(dice, 256) : meant[below(dice, COUNT(meant))];
    size_t at = below(dice, (uint32_t)bytes->len);
    if (bytes->len == 0)
        return;
    switch (below(dice, 8)) {
    case 0:
        bytes->len = at;
        break;
    case 1:
    case 2:
        take_byte_out(bytes, at);
        break;
    case 3:
    case 4:
        insert_byte(bytes, at, byte);
        break;
    default:
        bytes->at[at] = byte;
    }
}
