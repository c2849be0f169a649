#include "record.h"

/* How many bits of six numbers are set:
 * by sums of neighbouring bits, pairs and nibbles, and a multiplication. */
u64 program(const struct record *record, u64 length, u64 accumulator)
{
#pragma clang loop unroll(full)
    for (int i = 0; i < 6; i++) {
        u64 bits = record->numbers[i];
        bits -= bits >> 1 & 0x5555555555555555;
        bits = (bits & 0x3333333333333333) + (bits >> 2 & 0x3333333333333333);
        bits = (bits + (bits >> 4)) & 0x0f0f0f0f0f0f0f0f;
        accumulator += bits * 0x0101010101010101 >> 56;
    }
    return accumulator;
}
