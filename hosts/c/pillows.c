#include "pillows.h"

#include "room.h"

#include <stdlib.h>
#include <string.h>

/* ---- slices ---- */

static void add_slice(struct list *list, char letter, uint32_t left, uint32_t right) {
    switch (letter) {
    case 'W':
        add_row(list, 1, left, 2, right);
        break;
    case 'A':
        add_row(list, 1, left, right, 0);
        add_row(list, 2, right, left, 0);
        break;
    case 'L':
        add_row(list, 1, left, 2, 0);
        add_row(list, 1, 2, right, 0);
        break;
    case 'P':
        add_row(list, 1, left, ++list->n, right);
        break;
    default:
        add_row(list, 1, left, right, 0);
    }
}

struct list slices(const char *pattern, int closed) {
    uint32_t count = (uint32_t)strlen(pattern), ribs = closed ? count : count + 1;
    struct list list = empty_list(2 + ribs, count);
    for (uint32_t i = 0; i < count; i++)
        add_slice(&list, pattern[i], 3 + i, 3 + (i + 1) % ribs);
    return list;
}

/* What doesn't reach vertex 2 comes first, so that the rest is one fan there. One of the rest can be an L, and there
   are many W or few. */
static struct list any_slices(struct dice *dice, uint32_t size) {
    uint32_t count = 1 + below(dice, size), without = below(dice, 2) * below(dice, count);
    uint32_t along = below(dice, 3 * count), rarely = 1 + below(dice, count);
    char *pattern = room_for(count, 1);
    for (uint32_t i = 0; i < count; i++)
        if (i < without)
            pattern[i] = "PT"[below(dice, 2)];
        else
            pattern[i] = i == along ? 'L' : "WA"[below(dice, rarely) != 0];
    struct list list = slices(pattern, count > 1 && below(dice, 2) == 0);
    free(pattern);
    return list;
}

/* ---- pillows ---- */

/* Pieces are cut off until a triangle or a quadrilateral is left. Of a piece's corners its first and its last stay. */
static void add_polygon(struct list *list, uint32_t *corner, uint32_t count, struct dice *dice) {
    while (count > 4 || (count == 4 && below(dice, 2) == 0)) {
        uint32_t piece = count > 4 && below(dice, 2) == 0 ? 4 : 3, at = below(dice, count - piece + 1);
        add_row(list, corner[at], corner[at + 1], corner[at + 2], piece == 4 ? corner[at + 3] : 0);
        count -= piece - 2;
        memmove(corner + at + 1, corner + at + piece - 1, (count - at - 1) * sizeof *corner);
    }
    add_row(list, corner[0], corner[1], corner[2], count == 4 ? corner[3] : 0);
}

static struct list cut_polygon(uint32_t corners, struct dice *dice) {
    struct list list = empty_list(corners, corners);
    uint32_t *corner = room_for(corners, sizeof *corner);
    for (uint32_t i = 0; i < corners; i++)
        corner[i] = i + 1;
    add_polygon(&list, corner, corners, dice);
    free(corner);
    return list;
}

/* The other face's vertices keep their numbers. */
static void add_face(struct list *list, struct list *face) {
    turn_over(face);
    add_rows(list, face);
    drop_list(face);
}

struct list pillow(uint32_t corners, struct dice *dice) {
    struct list list = cut_polygon(corners, dice), face = cut_polygon(corners, dice);
    add_face(&list, &face);
    return list;
}

/* ---- cushions ---- */

static int is_on_rim(uint32_t v, uint32_t width, uint32_t height) {
    uint32_t x = (v - 1) % (width + 1), y = (v - 1) / (width + 1);
    return x == 0 || x == width || y == 0 || y == height;
}

struct list cushion(uint32_t width, uint32_t height, enum kinds kinds, struct dice *dice) {
    struct list list = sheet(width, height, 0, 0, kinds, dice), face = sheet(width, height, 0, 0, kinds, dice);
    for (size_t p = 0; p < 4 * face.m; p++)
        if (face.rows[p] != 0 && !is_on_rim(face.rows[p], width, height))
            face.rows[p] += list.n;
    add_face(&list, &face);
    list.n *= 2;
    close_numbering(&list);
    return list;
}

/* ---- any ---- */

struct list any_pillow(struct dice *dice, uint32_t size) {
    uint32_t width = 1 + below(dice, 1 + size / 6), height = 1 + below(dice, 1 + size / (4 * width));
    switch (below(dice, 4)) {
    case 0:
        return pillow(3 + below(dice, size < 6 ? size : 6), dice);
    case 1:
        return cushion(width, height, below(dice, 2) == 0 ? MIXED : QUADRILATERALS, dice);
    default:
        return any_slices(dice, size);
    }
}

/* The triangle with a side from a to b, turned so that it begins there; m: there is none. */
static size_t triangle_on(struct list *list, uint32_t a, uint32_t b) {
    for (size_t turn = 0; turn < 3 * list->m; turn++) {
        uint32_t *row = list->rows + 4 * (turn / 3);
        if (corners_of(row) != 3)
            continue;
        if (row[0] == a && row[1] == b)
            return turn / 3;
        rotate_row(row, 1);
    }
    return list->m;
}

void join_triangles(struct list *list, struct dice *dice) {
    if (list->m == 0)
        return;
    uint32_t *row = list->rows + 4 * (size_t)below(dice, (uint32_t)list->m);
    if (corners_of(row) != 3)
        return;
    rotate_row(row, below(dice, 3));
    uint32_t joined[4] = {row[0], 0, row[1], row[2]};
    size_t other = triangle_on(list, row[1], row[0]);
    if (other == list->m)
        return;
    joined[1] = list->rows[4 * other + 2];
    memcpy(row, joined, sizeof joined);
    take_row_out(list, other);
}
