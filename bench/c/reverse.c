#include "record.h"

/* Six numbers with their bits in the other order, mixed into the accumulator:
 * five exchanges by masks, and the bytes turned around. */
u64 program(const struct record *record, u64 length, u64 accumulator)
{
#pragma clang loop unroll(full)
    for (int i = 0; i < 6; i++) {
        u64 bits = record->numbers[i];
        bits = (bits >> 1 & 0x5555555555555555) | (bits & 0x5555555555555555) << 1;
        bits = (bits >> 2 & 0x3333333333333333) | (bits & 0x3333333333333333) << 2;
        bits = (bits >> 4 & 0x0f0f0f0f0f0f0f0f) | (bits & 0x0f0f0f0f0f0f0f0f) << 4;
        accumulator ^= __builtin_bswap64(bits);
    }
    return accumulator;
}
