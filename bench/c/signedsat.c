#include "record.h"

/* Sums of signed halves that stop at -32768 and 32767:
 * each is widened, added and clamped. */
u64 program(const struct record *record, u64 length, u64 accumulator)
{
    s32 sum = (s16)accumulator;
#pragma clang loop unroll(full)
    for (int i = 0; i < 16; i++) {
        sum += (s16)record->halves[i];
        if (sum > 32767)
            sum = 32767;
        if (sum < -32768)
            sum = -32768;
    }
    return (u16)sum;
}
