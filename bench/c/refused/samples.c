#include "record.h"

/* Signed samples of sound: the greatest level of sixteen, and how often zero is crossed:
 * signs are compared by an exclusive or. */
u64 program(const struct record *record, u64 length, u64 accumulator)
{
    s32 last = 0, peak = 0;
    u32 crossed = 0;
#pragma clang loop unroll(full)
    for (int i = 0; i < 16; i++) {
        s32 sample = (s16)record->halves[i], level = sample < 0 ? -sample : sample;
        if (level > peak)
            peak = level;
        if ((sample ^ last) < 0)
            crossed++;
        last = sample;
    }
    return accumulator + ((u64)crossed << 32) + (u32)peak;
}
