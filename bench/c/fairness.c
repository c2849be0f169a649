#include "record.h"

/* A fair scheduler's step: three tasks' times are scaled by their weights, and the least goes on:
 * a step of nice is a quarter, and clocks are compared as they wrap. Over small. */
u64 program(const struct record *record, u64 length, u64 accumulator)
{
    u64 least = 0;
    u32 chosen = 0;
#pragma clang loop unroll(full)
    for (u32 i = 0; i < 3; i++) {
        u64 ran = record->numbers[3 + i];
        u32 nice = ran & 7;
        u64 inverse = 4194304;
        if (nice & 1)
            inverse += inverse >> 2;
        if (nice & 2)
            inverse += (inverse >> 1) + (inverse >> 4);
        if (nice & 4)
            inverse = inverse * 10 >> 2;
        ran = ran >> 3 & 0xffffffff;
        u64 virtual = record->numbers[i] + (ran * inverse >> 22);
        if ((s64)(virtual - accumulator) < -6000000)
            virtual = accumulator - 6000000;
        if (i == 0 || (s64)(virtual - least) < 0) {
            least = virtual;
            chosen = i;
        }
    }
    if ((s64)(least - accumulator) > 0)
        return least;
    return accumulator + 1 + chosen;
}
