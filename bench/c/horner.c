#include "record.h"

/* A polynomial of degree five in fixed point with 16 binary places, at four points:
 * products of 64 bits, shifted with their sign. */
u64 program(const struct record *record, u64 length, u64 accumulator)
{
#pragma clang loop unroll(full)
    for (int i = 0; i < 4; i++) {
        s64 x = (s32)record->words[i] >> 12, value = 137;
        value = (value * x >> 16) - 2731;
        value = (value * x >> 16) + 10923;
        value = (value * x >> 16) - 32768;
        value = (value * x >> 16) + 65536;
        value = (value * x >> 16) + 65536;
        accumulator += (u64)value;
    }
    return accumulator;
}
