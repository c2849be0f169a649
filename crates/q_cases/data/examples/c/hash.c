#include "record.h"

/* A number of 64 bits, its bits turned to the left by a distance from 1 to 63. */
static inline u64 rotated(u64 number, int distance)
{
    return number << distance | number >> (64 - distance);
}

/* A hash of the first 48 bytes of all values, mixed as MurmurHash3 mixes its blocks. */
u64 program(const struct record *record, u64 length, u64 accumulator)
{
    u64 hash = accumulator;
#pragma clang loop unroll(full)
    for (int i = 0; i < 6; i++) {
        u64 block = record->numbers[i] * 0x87c37b91114253d5;
        block = rotated(block, 31) * 0x4cf5ad432745937f;
        hash = rotated(hash ^ block, 27) * 5 + 0x52dce729;
    }
    hash ^= hash >> 33;
    hash *= 0xff51afd7ed558ccd;
    return hash ^ hash >> 33;
}
