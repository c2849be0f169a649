#include "record.h"

/* How many of three points lie within a triangle:
 * the signs of three products for each, in 64 bits. */
u64 program(const struct record *record, u64 length, u64 accumulator)
{
    s64 ax = -20000, ay = -15000, bx = 25000, by = -10000, cx = 1000, cy = 28000;
#pragma clang loop unroll(full)
    for (int i = 0; i < 3; i++) {
        s64 x = (s16)record->halves[i * 2], y = (s16)record->halves[i * 2 + 1];
        if ((bx - ax) * (y - ay) - (by - ay) * (x - ax) >= 0 && (cx - bx) * (y - by) - (cy - by) * (x - bx) >= 0 &&
            (ax - cx) * (y - cy) - (ay - cy) * (x - cx) >= 0)
            accumulator++;
    }
    return accumulator;
}
