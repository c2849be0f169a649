#include "record.h"

/* The variance of six numbers in one pass after Welford, in fixed point:
 * the mean follows by a share of each deviation, whose products are summed. Over small. */
u64 program(const struct record *record, u64 length, u64 accumulator)
{
    s64 mean = 0, squares = 0;
#pragma clang loop unroll(full)
    for (int i = 0; i < 6; i++) {
        s64 value = (s64)(record->numbers[i] & 0xffffff) << 8;
        s64 delta = value - mean;
        mean += delta * (65536 / (i + 1)) >> 16;
        squares += (delta >> 8) * ((value - mean) >> 8);
    }
    return accumulator + (u64)squares / 5;
}
