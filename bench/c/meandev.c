#include "record.h"

/* The mean of sixteen halves, and the mean distance from it:
 * two passes over the same places, with an absolute value each. */
u64 program(const struct record *record, u64 length, u64 accumulator)
{
    u32 sum = 0, distance = 0;
#pragma clang loop unroll(full)
    for (int i = 0; i < 16; i++)
        sum += record->halves[i];
    s32 mean = (s32)(sum / 16);
#pragma clang loop unroll(full)
    for (int i = 0; i < 16; i++) {
        s32 error = record->halves[i] - mean;
        distance += (u32)(error < 0 ? -error : error);
    }
    return accumulator + ((u64)(u32)mean << 32) + distance / 16;
}
