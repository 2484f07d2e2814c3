#include "points.h"

#include "room.h"

#include <string.h>

const uint64_t special_numbers[SPECIAL_NUMBERS] = {
    0x0000000000000000, /* 0 */
    0x8000000000000000, /* -0 */
    0x0000000000000001, /* 2^-1074, the least above 0 */
    0x8000000000000001,
    0x0000000000000002,
    0x0000000000000003,
    0x8000000000000003,
    0x000FFFFFFFFFFFFF, /* the greatest subnormal */
    0x800FFFFFFFFFFFFF,
    0x0010000000000000, /* the least normal */
    0x8010000000000000,
    0x0010000000000001,
    0x001FFFFFFFFFFFFF,
    0x0020000000000001,
    0x3FB999999999999A, /* 0.1 */
    0x3FC999999999999A, /* 0.2 */
    0x3FF0000000000000, /* 1 */
    0xBFF0000000000000,
    0x4330000000000000, /* 2^52 */
    0x432FFFFFFFFFFFFE, /* 2^52 - 1 */
    0xC330000000000000,
    0x4330000000000001, /* 2^52 + 1 */
    0x4340000000000000, /* 2^53 */
    0x4340000000000001, /* 2^53 + 2 */
    0x7FDFFFFFFFFFFFFE, /* 2^1023 - 2^971 */
    0x7FDFFFFFFFFFFFFF, /* 2^1023 - 2^970 */
    0x7FE0000000000000, /* 2^1023 */
    0x7FEFFFFFFFFFFFFF, /* the greatest */
    0xFFEFFFFFFFFFFFFF,
    0x7FF0000000000000, /* infinity */
    0xFFF0000000000000,
    0x7FF8000000000000, /* no number */
    0xFFFADEADBEEF0123, /* no number, with bits of its own */
    0x7FF0000000000001, /* no number, of the kind that signals */
};

void put_bits(struct slice points, size_t number, uint64_t bits) {
    memcpy(points.at + 2 * number, &bits, sizeof bits);
}

void put_number(struct slice points, size_t number, double value) {
    memcpy(points.at + 2 * number, &value, sizeof value);
}

double number_at(struct slice points, size_t number) {
    double value;
    memcpy(&value, points.at + 2 * number, sizeof value);
    return value;
}

void put_known_points(struct slice points, uint32_t n) {
    for (uint32_t v = 1; v <= n; v++) {
        put_number(points, 3 * (v - 1), v);
        put_number(points, 3 * (v - 1) + 1, (double)v * v);
        put_number(points, 3 * (v - 1) + 2, -2.0 * v);
    }
}

static uint64_t any_bits(struct dice *dice) {
    return (uint64_t)any_number(dice) << 32 | any_number(dice);
}

/* Between 2^-64 and 2^64, so that sums are rounded and seldom end in what one of the two was. */
static uint64_t middling_bits(struct dice *dice) {
    uint64_t exponent = 1023 - 64 + below(dice, 128), sign = below(dice, 2);
    return sign << 63 | exponent << 52 | any_bits(dice) >> 12;
}

struct slice any_points(size_t numbers, struct dice *dice) {
    struct slice points = {room_for(2 * numbers, sizeof(uint32_t)), 2 * numbers};
    for (size_t i = 0; i < numbers; i++) {
        uint32_t kind = below(dice, 8);
        if (kind == 0)
            put_bits(points, i, special_numbers[below(dice, SPECIAL_NUMBERS)]);
        else if (kind == 1)
            put_number(points, i, (double)below(dice, 2000) - 1000);
        else
            put_bits(points, i, kind == 2 ? any_bits(dice) : middling_bits(dice));
    }
    return points;
}
