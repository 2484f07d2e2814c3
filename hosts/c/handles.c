#include "handles.h"

#include "room.h"

/* ---- windows ---- */

/* A window is a cell that isn't there; all the cells about it are, so that no two windows meet. */
struct shaped windowed(uint32_t across, uint32_t along, int everywhere, enum kinds kinds, struct dice *dice) {
    uint32_t width = 2 * across + 1, height = 2 * along + 1, line = width + 1;
    struct shaped plate = {empty_list(line * (height + 1), 2 * (size_t)width * height), 1};
    for (uint32_t y = 0; y < height; y++)
        for (uint32_t x = 0; x < width; x++) {
            uint32_t first = 1 + x + line * y, corner[4] = {first, first + 1, first + line + 1, first + line};
            if (x % 2 == 1 && y % 2 == 1 && (everywhere || below(dice, 2) == 0))
                plate.number -= 1;
            else
                add_cell(&plate.list, corner, kinds, dice);
        }
    return plate;
}

/* ---- surfaces of solids ---- */

enum { AXES = 3 };

/* Cells in a block; with shafts, those that are odd both across and along are empty from one face to the other. */
struct solid {
    uint32_t cells[AXES];
    int shafts;
};

/* Below 0 a place is past every number of cells. */
static int is_filled(const struct solid *solid, const uint32_t at[AXES]) {
    for (int axis = 0; axis < AXES; axis++)
        if (at[axis] >= solid->cells[axis])
            return 0;
    return !(solid->shafts && at[0] % 2 == 1 && at[1] % 2 == 1);
}

static uint32_t vertex_at(const struct solid *solid, const uint32_t at[AXES]) {
    const uint32_t *cells = solid->cells;
    return 1 + at[0] + (cells[0] + 1) * (at[1] + (cells[1] + 1) * at[2]);
}

/* The face of a cell across an axis, on its far side or on its near one, seen from outside. */
static void add_face(struct list *list, const struct solid *solid, const uint32_t cell[AXES], int axis, uint32_t far,
                     enum kinds kinds, struct dice *dice) {
    static const uint32_t round[4][2] = {{0, 0}, {1, 0}, {1, 1}, {0, 1}};
    uint32_t corner[4];
    for (int i = 0; i < 4; i++) {
        uint32_t at[AXES] = {cell[0], cell[1], cell[2]};
        at[axis] += far;
        at[(axis + 1) % AXES] += round[i][0];
        at[(axis + 2) % AXES] += round[i][1];
        corner[far ? i : 3 - i] = vertex_at(solid, at);
    }
    add_cell(list, corner, kinds, dice);
}

static void add_faces(struct list *list, const struct solid *solid, const uint32_t cell[AXES], enum kinds kinds,
                      struct dice *dice) {
    if (!is_filled(solid, cell))
        return;
    for (int side = 0; side < 2 * AXES; side++) {
        uint32_t beside[AXES] = {cell[0], cell[1], cell[2]}, far = (uint32_t)side % 2;
        beside[side / 2] += far ? 1 : UINT32_MAX;
        if (!is_filled(solid, beside))
            add_face(list, solid, cell, side / 2, far, kinds, dice);
    }
}

static struct list surface_of(const struct solid *solid, enum kinds kinds, struct dice *dice) {
    const uint32_t *cells = solid->cells;
    struct list list = empty_list((cells[0] + 1) * (cells[1] + 1) * (cells[2] + 1), 0);
    for (uint32_t z = 0; z < cells[2]; z++)
        for (uint32_t y = 0; y < cells[1]; y++)
            for (uint32_t x = 0; x < cells[0]; x++)
                add_faces(&list, solid, (const uint32_t[AXES]){x, y, z}, kinds, dice);
    close_numbering(&list);
    return list;
}

struct shaped box(uint32_t width, uint32_t height, uint32_t depth, enum kinds kinds, struct dice *dice) {
    return (struct shaped){surface_of(&(struct solid){{width, height, depth}, 0}, kinds, dice), 2};
}

struct shaped pierced(uint32_t across, uint32_t along, uint32_t depth, enum kinds kinds, struct dice *dice) {
    struct solid solid = {{2 * across + 1, 2 * along + 1, depth}, 1};
    return (struct shaped){surface_of(&solid, kinds, dice), 2 - 2 * (int64_t)across * along};
}

/* ---- pieces ---- */

void put_beside(struct shaped *housing, struct shaped other) {
    add_list(&housing->list, &other.list);
    housing->number += other.number;
    drop_list(&other.list);
}

void put_spare(struct shaped *housing, uint32_t after, uint32_t count) {
    add_spare(&housing->list, after, count);
    housing->number += count;
}

static uint32_t root_of(uint32_t size) {
    uint32_t root = 1;
    while ((root + 1) * (root + 1) <= size)
        root++;
    return root;
}

struct shaped any_piece(struct dice *dice, uint32_t size) {
    uint32_t most = root_of(size), across = 1 + below(dice, most), along = 1 + below(dice, most);
    enum kinds kinds = (enum kinds)below(dice, 3);
    switch (below(dice, 9)) {
    case 0:
        return (struct shaped){sheet(across, along, 0, 0, kinds, dice), 1};
    case 1:
        return (struct shaped){sheet(across + 2, along, 1, 0, kinds, dice), 0};
    case 2:
        return (struct shaped){sheet(across + 2, along + 2, 1, 1, kinds, dice), 0};
    case 3:
        return (struct shaped){fan(across, 0), 1};
    case 4:
        return (struct shaped){fan(across + 2, 1), 1};
    case 5:
        return (struct shaped){bipyramid(across + 2), 2};
    case 6:
        return box(across, along, 1 + below(dice, 3), kinds, dice);
    case 7:
        return pierced(across / 2, along / 2, 1 + below(dice, 2), kinds, dice);
    default:
        return windowed(across / 2, along / 2, (int)below(dice, 2), kinds, dice);
    }
}

struct shaped any_shaped(struct dice *dice, uint32_t size) {
    struct shaped housing = any_piece(dice, size);
    for (uint32_t others = below(dice, 4); others > 0; others--)
        put_beside(&housing, any_piece(dice, size));
    for (uint32_t times = below(dice, 3); times > 0; times--)
        put_spare(&housing, below(dice, housing.list.n + 1), 1 + below(dice, 4));
    return housing;
}
