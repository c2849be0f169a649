#include "record.h"

/* A Bloom filter of 64 bits in the accumulator, three bits for each of four words:
 * the bits of a hash are places of shifts. */
u64 program(const struct record *record, u64 length, u64 accumulator)
{
#pragma clang loop unroll(full)
    for (int i = 0; i < 4; i++) {
        u64 hash = record->words[i] * 0x9e3779b97f4a7c15;
        u64 bits = 1ull << (hash >> 58) | 1ull << (hash >> 52 & 63) | 1ull << (hash >> 46 & 63);
        if ((accumulator & bits) != bits)
            accumulator = (accumulator | bits) + (hash >> 60 == 0);
    }
    return accumulator;
}
