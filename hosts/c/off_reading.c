#include "off_reading.h"

#include "room.h"

#include <stdlib.h>
#include <string.h>

/* ---- from the text to its items ---- */

/* An item in the copy of the text, with a zero byte put after it. One with a zero byte of its own is longer than it
   seems. */
struct item {
    char *at;
    uint32_t len, line;
};

struct items {
    char *copy;
    struct item *all;
    size_t count;
    uint32_t last_line;
};

static char *without_comments(struct text text) {
    char *copy = room_for(text.len, 1);
    int in_comment = 0;
    for (size_t i = 0; i < text.len; i++) {
        in_comment = text.at[i] != '\n' && (in_comment || text.at[i] == '#');
        copy[i] = in_comment ? ' ' : (char)text.at[i];
    }
    return copy;
}

static int is_blank(char byte) {
    return byte == ' ' || byte == '\t' || byte == '\r' || byte == '\n';
}

static int starts_item(const char *copy, size_t i) {
    return !is_blank(copy[i]) && (i == 0 || is_blank(copy[i - 1]));
}

static struct items items_of(struct text text) {
    struct items items = {without_comments(text), NULL, 0, 1};
    size_t most = 0;
    for (size_t i = 0; i < text.len; i++)
        most += (size_t)starts_item(items.copy, i);
    items.all = room_for(most, sizeof *items.all);
    for (size_t i = 0; i < text.len; i++) {
        if (starts_item(items.copy, i))
            items.all[items.count++] = (struct item){items.copy + i, 0, items.last_line};
        if (!is_blank(items.copy[i]))
            items.all[items.count - 1].len++;
        items.last_line += items.copy[i] == '\n';
    }
    for (size_t i = 0; i < items.count; i++)
        items.all[i].at[items.all[i].len] = '\0';
    return items;
}

static void drop_items(struct items *items) {
    free(items->copy);
    free(items->all);
}

/* ---- kinds of items ---- */

static int is_word(const struct item *item) {
    return item->len == 3 && strcmp(item->at, "OFF") == 0;
}

static size_t digits_at(const char *at) {
    return strspn(at, "0123456789");
}

static int is_whole(const struct item *item) {
    return item->len <= 7 && digits_at(item->at) == item->len;
}

static int is_decimal(const struct item *item) {
    const char *start = item->at + (*item->at == '+' || *item->at == '-'), *end = start + digits_at(start);
    if (end == start)
        return 0;
    if (*end == '.')
        end += 1 + digits_at(end + 1);
    return end[-1] != '.' && end == item->at + item->len;
}

static uint32_t value(const struct items *items, size_t i) {
    return (uint32_t)strtoul(items->all[i].at, NULL, 10);
}

/* ---- the form ---- */

/* Where items stand, counted from 0; the points come after these. */
enum { WORD, VERTICES, FACES, EDGES, POINTS_START };

static size_t faces_start(const struct items *items) {
    return POINTS_START + 3 * (size_t)value(items, VERTICES);
}

static size_t face_end(const struct items *items, size_t start) {
    return start + 1 + value(items, start);
}

/* The first item from `start` on that isn't there or isn't of this kind; `end` where all before that are. */
static size_t first_other(const struct items *items, size_t start, size_t end, int (*is_of_kind)(const struct item *)) {
    while (start < end && start < items->count && is_of_kind(&items->all[start]))
        start++;
    return start;
}

/* The first bad item; one that is missing comes after the last. `sound`: there is none. */
static const size_t sound = SIZE_MAX;

static size_t first_bad(const struct items *items) {
    size_t at = first_other(items, WORD, VERTICES, is_word);
    if (at < VERTICES)
        return at;
    at = first_other(items, VERTICES, POINTS_START, is_whole);
    if (at < POINTS_START)
        return at;
    at = first_other(items, POINTS_START, faces_start(items), is_decimal);
    if (at < faces_start(items))
        return at;
    for (uint32_t left = value(items, FACES); left > 0; left--) {
        size_t start = at;
        if (first_other(items, start, start + 1, is_whole) == start)
            return start;
        at = first_other(items, start + 1, face_end(items, start), is_whole);
        if (at < face_end(items, start))
            return at;
    }
    return at < items->count ? at : sound;
}

/* The first face with another number of corners than 3 and 4, counted from 1; 0: there is none. */
static uint32_t unfit_face(const struct items *items) {
    uint32_t m = value(items, FACES);
    size_t at = faces_start(items);
    for (uint32_t f = 1; f <= m; f++, at = face_end(items, at))
        if (value(items, at) != 3 && value(items, at) != 4)
            return f;
    return 0;
}

static struct answer judge(const struct items *items, size_t room) {
    const uint32_t largest = 1000000;
    size_t bad = first_bad(items);
    if (bad != sound)
        return (struct answer){16, bad < items->count ? items->all[bad].line : items->last_line, 0};
    uint32_t n = value(items, VERTICES), m = value(items, FACES);
    if (n > largest || m > largest)
        return (struct answer){1, 0, 0};
    uint32_t unfit = unfit_face(items);
    if (unfit != 0)
        return (struct answer){17, unfit, 0};
    return room < 4 * m ? (struct answer){13, 4 * m, 0} : (struct answer){0, n, m};
}

static void write_rows(const struct items *items, uint32_t *row) {
    size_t at = faces_start(items);
    for (uint32_t left = value(items, FACES); left > 0; left--, row += 4) {
        row[3] = 0;
        for (uint32_t i = 0; i < value(items, at); i++)
            row[i] = value(items, at + 1 + i) + 1;
        at = face_end(items, at);
    }
}

struct answer reference_read_off(struct text text, struct slice elements) {
    struct items items = items_of(text);
    struct answer answer = judge(&items, elements.len);
    if (answer.refusal == 0)
        write_rows(&items, elements.at);
    drop_items(&items);
    return answer;
}
