#include "record.h"

/* The place of a point along Hilbert's curve of 256 by 256:
 * for each of eight bits the square is turned by two tests. */
u64 program(const struct record *record, u64 length, u64 accumulator)
{
    u32 x = record->bytes[0], y = record->bytes[1], place = 0;
#pragma clang loop unroll(full)
    for (u32 side = 128; side > 0; side /= 2) {
        u32 right = (x & side) != 0, up = (y & side) != 0;
        place += side * side * (3 * right ^ up);
        if (!up) {
            if (right) {
                x = 255 - x;
                y = 255 - y;
            }
            u32 other = x;
            x = y;
            y = other;
        }
    }
    return accumulator + place;
}
