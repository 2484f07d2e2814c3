#include "ribs.h"

#include <string.h>

/* ---- sheets on a line ---- */

/* length + 1 vertices, from the first one on by steps */
struct line {
    uint32_t first, step, length;
};

/* Adds a sheet whose first vertices are those of the line; the others are new. */
static void stand_on(struct list *list, struct line line, uint32_t height, enum kinds kinds, struct dice *dice) {
    struct list rib = sheet(line.length, height, 0, 0, kinds, dice);
    uint32_t shared = line.length + 1;
    for (size_t p = 0; p < 4 * rib.m; p++)
        if (rib.rows[p] > shared)
            rib.rows[p] += list->n - shared;
        else if (rib.rows[p] != 0)
            rib.rows[p] = line.first + line.step * (rib.rows[p] - 1);
    if (below(dice, 2) == 0)
        turn_over(&rib);
    add_rows(list, &rib);
    list->n += rib.n - shared;
    drop_list(&rib);
}

struct list leaves(uint32_t count, uint32_t length, uint32_t height, enum kinds kinds, struct dice *dice) {
    struct list list = empty_list(length + 1, 2 * (size_t)count * length * height);
    while (count-- > 0)
        stand_on(&list, (struct line){1, 1, length}, height, kinds, dice);
    return list;
}

struct list panel(uint32_t width, uint32_t height, uint32_t count, enum kinds kinds, struct dice *dice) {
    struct list list = sheet(width, height, 0, 0, kinds, dice);
    while (count-- > 0) {
        struct line across = {1 + (width + 1) * below(dice, height + 1), 1, width};
        struct line along = {1 + below(dice, width + 1), width + 1, height};
        stand_on(&list, below(dice, 2) == 0 ? across : along, 1 + below(dice, 2), kinds, dice);
    }
    return list;
}

/* ---- others ---- */

static void add_wall(struct list *list, uint32_t a, uint32_t b, uint32_t floor) {
    add_row(list, a, b, b + floor, a + floor);
}

struct list compartments(uint32_t width, uint32_t height, struct dice *dice) {
    struct list list = sheet(width, height, 0, 0, QUADRILATERALS, dice);
    uint32_t columns = width + 1, floor = list.n;
    for (uint32_t v = 1; v <= floor; v++) {
        if (v % columns != 0)
            add_wall(&list, v, v + 1, floor);
        if (v + columns <= floor)
            add_wall(&list, v, v + columns, floor);
    }
    list.n = 2 * floor;
    return list;
}

static uint32_t other_corner(const uint32_t *row, uint32_t count, uint32_t n, struct dice *dice) {
    uint32_t v = 1 + below(dice, n);
    for (uint32_t i = 0; i < count; i++)
        if (row[i] == v)
            return other_corner(row, count, n, dice);
    return v;
}

struct list crowd(uint32_t n, uint32_t count, struct dice *dice) {
    struct list list = empty_list(n, count);
    while (count-- > 0) {
        uint32_t row[4] = {0, 0, 0, 0}, corners = 3 + below(dice, 2);
        for (uint32_t i = 0; i < corners; i++)
            row[i] = other_corner(row, i, n, dice);
        add_row(&list, row[0], row[1], row[2], row[3]);
    }
    return list;
}

struct list pile(uint32_t n, uint32_t count, const uint32_t *row, int turned) {
    struct list list = empty_list(n, count);
    uint32_t over[4];
    memcpy(over, row, sizeof over);
    if (turned)
        turn_over(&(struct list){n, 1, 1, over});
    for (uint32_t i = 0; i < count; i++) {
        const uint32_t *plate = i % 2 == 0 ? row : over;
        add_row(&list, plate[0], plate[1], plate[2], plate[3]);
    }
    return list;
}

struct list any_ribs(struct dice *dice, uint32_t size) {
    uint32_t width = 1 + below(dice, 1 + size / 6), height = 1 + below(dice, 1 + size / (6 * width));
    enum kinds kinds = (enum kinds)below(dice, 3);
    switch (below(dice, 5)) {
    case 0:
        return leaves(1 + below(dice, size), 1, 1, kinds, dice);
    case 1:
        return leaves(3 + below(dice, 4), width, height, kinds, dice);
    case 2:
        return compartments(width, height, dice);
    case 3:
        return crowd(4 + below(dice, 2 * size), 1 + below(dice, size), dice);
    default:
        return panel(width, height, 1 + below(dice, 4), kinds, dice);
    }
}

void double_plate(struct list *list, struct dice *dice) {
    uint32_t row[4];
    struct list plate = {list->n, 1, 1, row};
    if (list->m == 0)
        return;
    memcpy(row, list->rows + 4 * (size_t)below(dice, (uint32_t)list->m), sizeof row);
    rotate_rows(&plate, dice);
    if (below(dice, 2) == 0)
        turn_over(&plate);
    add_rows(list, &plate);
}
