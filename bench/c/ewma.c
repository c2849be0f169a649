#include "record.h"

/* A smoothed round trip and its deviation of eight samples, as TCP keeps them:
 * shifts and signed differences in 32 bits. */
u64 program(const struct record *record, u64 length, u64 accumulator)
{
    s32 smoothed = (s32)(accumulator & 0xffffff), deviation = (s32)(accumulator >> 32 & 0xffffff);
#pragma clang loop unroll(full)
    for (int i = 0; i < 8; i++) {
        s32 error = (s32)record->halves[i] - (smoothed >> 3);
        smoothed += error;
        if (error < 0)
            error = -error;
        deviation += error - (deviation >> 2);
    }
    return (u64)(u32)deviation << 32 | (u32)smoothed;
}
