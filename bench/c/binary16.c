#include "record.h"

/* The sum of eight half floats as fixed point with 16 bits of fraction:
 * the significand is shifted by the exponent, infinity is held at the greatest, and NaN is left out. */
u64 program(const struct record *record, u64 length, u64 accumulator)
{
    s64 sum = 0;
#pragma clang loop unroll(full)
    for (int i = 0; i < 8; i++) {
        u32 half = record->halves[i];
        u32 exponent = half >> 10 & 31;
        u64 value = half & 0x3ff;
        if (exponent == 31)
            value = value ? 0 : 65504ull << 16;
        else if (exponent == 0)
            value >>= 8;
        else if (exponent < 9)
            value = (value | 0x400) >> (9 - exponent);
        else
            value = (value | 0x400) << (exponent - 9);
        sum += half & 0x8000 ? -(s64)value : (s64)value;
    }
    return accumulator + sum;
}
