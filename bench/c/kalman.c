#include "record.h"

/* A level with a trend, kept in 32 bits each and moved by eight signed samples:
 * products, shifts with the sign and differences. */
u64 program(const struct record *record, u64 length, u64 accumulator)
{
    s32 level = (s16)accumulator, trend = (s16)(accumulator >> 16);
#pragma clang loop unroll(full)
    for (int i = 0; i < 8; i++) {
        s32 ahead = level + trend, error = (s16)record->halves[i] - ahead;
        level = ahead + (error * 5 >> 4);
        trend += error >> 6;
        trend = trend > 999 ? 999 : trend < -999 ? -999 : trend;
    }
    return (u16)level | (u64)(u16)trend << 16;
}
