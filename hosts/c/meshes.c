#include "meshes.h"

#include "room.h"

#include <stdlib.h>
#include <string.h>

/* splitmix64 */
uint32_t any_number(struct dice *dice) {
    uint64_t z = dice->state += 0x9E3779B97F4A7C15u;
    z = (z ^ (z >> 30)) * 0xBF58476D1CE4E5B9u;
    z = (z ^ (z >> 27)) * 0x94D049BB133111EBu;
    return (uint32_t)((z ^ (z >> 31)) >> 32);
}

uint32_t below(struct dice *dice, uint32_t bound) {
    return bound == 0 ? 0 : any_number(dice) % bound;
}

void swap(uint32_t *a, uint32_t *b) {
    uint32_t kept = *a;
    *a = *b;
    *b = kept;
}

struct list empty_list(uint32_t n, size_t room) {
    return (struct list){n, 0, room, room_for(4 * room, sizeof(uint32_t))};
}

void drop_list(struct list *list) {
    free(list->rows);
    *list = (struct list){0, 0, 0, NULL};
}

static void make_room(struct list *list, size_t room) {
    if (room <= list->room)
        return;
    struct list grown = empty_list(list->n, 2 * room);
    memcpy(grown.rows, list->rows, 4 * list->m * sizeof(uint32_t));
    grown.m = list->m;
    drop_list(list);
    *list = grown;
}

void add_row(struct list *list, uint32_t a, uint32_t b, uint32_t c, uint32_t d) {
    make_room(list, list->m + 1);
    uint32_t *row = list->rows + 4 * list->m++;
    row[0] = a;
    row[1] = b;
    row[2] = c;
    row[3] = d;
}

void add_rows(struct list *list, const struct list *other) {
    for (size_t p = 0; p < 4 * other->m; p += 4)
        add_row(list, other->rows[p], other->rows[p + 1], other->rows[p + 2], other->rows[p + 3]);
}

static uint32_t shifted(uint32_t v, uint32_t by) {
    return v == 0 ? 0 : v + by;
}

void add_list(struct list *list, const struct list *other) {
    uint32_t n = list->n;
    for (size_t f = 0; f < other->m; f++) {
        const uint32_t *row = other->rows + 4 * f;
        add_row(list, shifted(row[0], n), shifted(row[1], n), shifted(row[2], n), shifted(row[3], n));
    }
    list->n += other->n;
}

void add_cell(struct list *list, const uint32_t corner[4], enum kinds kinds, struct dice *dice) {
    if (kinds == QUADRILATERALS || (kinds == MIXED && below(dice, 2) == 0)) {
        add_row(list, corner[0], corner[1], corner[2], corner[3]);
    } else if (kinds == MIXED && below(dice, 2) == 0) {
        add_row(list, corner[1], corner[2], corner[3], 0);
        add_row(list, corner[3], corner[0], corner[1], 0);
    } else {
        add_row(list, corner[0], corner[1], corner[2], 0);
        add_row(list, corner[0], corner[2], corner[3], 0);
    }
}

struct list sheet(uint32_t width, uint32_t height, int closed_across, int closed_along, enum kinds kinds,
                  struct dice *dice) {
    uint32_t columns = closed_across ? width : width + 1, lines = closed_along ? height : height + 1;
    struct list list = empty_list(columns * lines, 2 * (size_t)width * height);
    for (uint32_t y = 0; y < height; y++)
        for (uint32_t x = 0; x < width; x++) {
            uint32_t right = (x + 1) % columns, up = (y + 1) % lines;
            uint32_t corner[4] = {1 + x + columns * y, 1 + right + columns * y, 1 + right + columns * up,
                                  1 + x + columns * up};
            add_cell(&list, corner, kinds, dice);
        }
    return list;
}

struct list fan(uint32_t count, int closed) {
    uint32_t rim = closed ? count : count + 1;
    struct list list = empty_list(1 + rim, count);
    for (uint32_t i = 0; i < count; i++)
        add_row(&list, 1, 2 + i, 2 + (i + 1) % rim, 0);
    return list;
}

struct list bipyramid(uint32_t count) {
    struct list list = empty_list(2 + count, 2 * (size_t)count);
    for (uint32_t i = 0; i < count; i++) {
        add_row(&list, 1, 3 + i, 3 + (i + 1) % count, 0);
        add_row(&list, 2, 3 + (i + 1) % count, 3 + i, 0);
    }
    return list;
}

struct list book(uint32_t n, uint32_t count) {
    struct list list = empty_list(n, count);
    for (uint32_t i = 0; i < count; i++)
        add_row(&list, 1 + i % 2, 2 - i % 2, 3 + i % (n - 2), 0);
    return list;
}

struct list apart(uint32_t corners, uint32_t count) {
    struct list list = empty_list(corners * count, count);
    for (uint32_t v = 0; v < list.n; v += corners)
        add_row(&list, v + corners, v + 1, v + 2, corners == 4 ? v + 3 : 0);
    return list;
}

void add_spare(struct list *list, uint32_t after, uint32_t count) {
    for (size_t p = 0; p < 4 * list->m; p++)
        if (list->rows[p] > after)
            list->rows[p] += count;
    list->n += count;
}

/* Before, after or within the others, together or here and there. */
static void add_any_spare(struct list *list, struct dice *dice, uint32_t size) {
    uint32_t together = 1 + below(dice, size);
    switch (below(dice, 4)) {
    case 0:
        add_spare(list, 0, together);
        break;
    case 1:
        add_spare(list, list->n, together);
        break;
    case 2:
        add_spare(list, below(dice, list->n + 1), together);
        break;
    default:
        for (uint32_t times = 1 + below(dice, 4); times > 0; times--)
            add_spare(list, below(dice, list->n + 1), 1 + below(dice, 2));
    }
}

static struct list one_housing(struct dice *dice, uint32_t size) {
    uint32_t width = 1 + below(dice, 1 + size / 3), height = 1 + below(dice, 1 + size / (2 * width));
    enum kinds kinds = (enum kinds)below(dice, 3);
    switch (below(dice, 7)) {
    case 0:
        return fan(1 + below(dice, size), 0);
    case 1:
        return fan(3 + below(dice, size), 1);
    case 2:
        return bipyramid(3 + below(dice, size / 2));
    case 3:
        return book(3 + below(dice, size), 1 + below(dice, size));
    case 4:
        return sheet(2 + width, height, 1, 0, kinds, dice);
    case 5:
        return sheet(2 + width, 2 + height, 1, 1, kinds, dice);
    default:
        return sheet(width, height, 0, 0, kinds, dice);
    }
}

struct list any_housing(struct dice *dice, uint32_t size) {
    if (below(dice, 20) == 0)
        return empty_list(below(dice, size + 1), 0);
    struct list list = one_housing(dice, size);
    if (below(dice, 4) == 0) {
        struct list other = one_housing(dice, size);
        add_list(&list, &other);
        drop_list(&other);
    }
    if (below(dice, 3) == 0)
        add_any_spare(&list, dice, size);
    return list;
}

void renumber_vertices(struct list *list, struct dice *dice) {
    uint32_t *number = room_for(list->n, sizeof *number);
    for (uint32_t v = 0; v < list->n; v++)
        number[v] = v + 1;
    for (uint32_t v = list->n; v > 1; v--)
        swap(&number[v - 1], &number[below(dice, v)]);
    for (size_t p = 0; p < 4 * list->m; p++)
        if (list->rows[p] >= 1 && list->rows[p] <= list->n)
            list->rows[p] = number[list->rows[p] - 1];
    free(number);
}

void shuffle_rows(struct list *list, struct dice *dice) {
    for (size_t f = list->m; f > 1; f--) {
        size_t other = below(dice, (uint32_t)f);
        for (int i = 0; i < 4; i++)
            swap(&list->rows[4 * (f - 1) + (size_t)i], &list->rows[4 * other + (size_t)i]);
    }
}

uint32_t corners_of(const uint32_t *row) {
    return row[3] == 0 ? 3 : 4;
}

void rotate_row(uint32_t *row, uint32_t by) {
    uint32_t old[4] = {row[0], row[1], row[2], row[3]}, count = corners_of(row);
    for (uint32_t i = 0; i < count; i++)
        row[i] = old[(i + by) % count];
}

void rotate_rows(struct list *list, struct dice *dice) {
    for (size_t f = 0; f < list->m; f++)
        rotate_row(list->rows + 4 * f, below(dice, 4));
}

static void reverse_row(uint32_t *row) {
    swap(&row[0], &row[corners_of(row) - 1]);
    if (corners_of(row) == 4)
        swap(&row[1], &row[2]);
}

void turn_over(struct list *list) {
    for (size_t f = 0; f < list->m; f++)
        reverse_row(list->rows + 4 * f);
}

void disguise(struct list *list, struct dice *dice) {
    if (below(dice, 2) == 0)
        renumber_vertices(list, dice);
    if (below(dice, 2) == 0)
        shuffle_rows(list, dice);
    if (below(dice, 2) == 0)
        rotate_rows(list, dice);
    if (below(dice, 4) == 0)
        turn_over(list);
}

struct list shuffled(struct list list, struct dice *dice) {
    renumber_vertices(&list, dice);
    shuffle_rows(&list, dice);
    rotate_rows(&list, dice);
    return list;
}

void take_row_out(struct list *list, size_t f) {
    memmove(list->rows + 4 * f, list->rows + 4 * (f + 1), 4 * (list->m - f - 1) * sizeof(uint32_t));
    list->m--;
}

void close_numbering(struct list *list) {
    uint32_t *number = room_for((size_t)list->n + 1, sizeof *number), last = 0;
    for (size_t p = 0; p < 4 * list->m; p++)
        if (list->rows[p] <= list->n)
            number[list->rows[p]] = 1;
    for (uint32_t v = 1; v <= list->n; v++)
        if (number[v] != 0)
            number[v] = ++last;
    number[0] = 0;
    for (size_t p = 0; p < 4 * list->m; p++)
        if (list->rows[p] <= list->n)
            list->rows[p] = number[list->rows[p]];
    list->n = last;
    free(number);
}

static void weld_vertices(struct list *list, uint32_t a, uint32_t b) {
    for (size_t p = 0; p < 4 * list->m; p++)
        if (list->rows[p] == a)
            list->rows[p] = b;
    close_numbering(list);
}

void damage_list(struct list *list, struct dice *dice) {
    if (list->m == 0)
        return;
    size_t f = below(dice, (uint32_t)list->m);
    uint32_t row[4];
    memcpy(row, list->rows + 4 * f, sizeof row);
    switch (below(dice, 9)) {
    case 0:
        reverse_row(list->rows + 4 * f);
        break;
    case 1:
        add_row(list, row[0], row[1], row[2], row[3]);
        break;
    case 2:
        reverse_row(row);
        add_row(list, row[0], row[1], row[2], row[3]);
        break;
    case 3:
        take_row_out(list, f);
        break;
    case 4:
        take_row_out(list, f);
        close_numbering(list);
        break;
    case 5:
        weld_vertices(list, 1 + below(dice, list->n), 1 + below(dice, list->n));
        break;
    case 6:
        list->rows[4 * f + below(dice, 4)] = below(dice, list->n + 2);
        break;
    case 7:
        add_spare(list, below(dice, list->n + 1), 1);
        break;
    default:
        if (list->n > 0)
            list->n -= 1;
    }
}

static uint32_t wrong_entry(uint32_t entry, const uint32_t *table, size_t len, uint32_t codes, struct dice *dice) {
    switch (below(dice, 8)) {
    case 0:
        return 0;
    case 1:
        return entry + 1;
    case 2:
        return entry - 1;
    case 3:
        return any_number(dice);
    case 4:
        return table[below(dice, (uint32_t)len)];
    case 5:
        return 8 * below(dice, codes / 8 + 2);
    default:
        return below(dice, codes);
    }
}

void damage_table(uint32_t *table, size_t len, uint32_t codes, struct dice *dice) {
    if (len == 0)
        return;
    for (uint32_t times = 1 + below(dice, 3); times > 0; times--) {
        size_t i = below(dice, (uint32_t)len);
        if (below(dice, 4) == 0)
            swap(&table[i], &table[below(dice, (uint32_t)len)]);
        else
            table[i] = wrong_entry(table[i], table, len, codes, dice);
    }
}
