#include "record.h"

/* Sixteen registers of four bits in the accumulator, as an estimate of distinct words keeps them:
 * the greatest number of zeros in front of a hash, by the hash's lowest bits. */
u64 program(const struct record *record, u64 length, u64 accumulator)
{
#pragma clang loop unroll(full)
    for (int i = 0; i < 3; i++) {
        u32 hash = record->words[i] * 0x9e3779b1;
        hash ^= hash >> 16;
        u32 rank = 1, place = (hash & 15) * 4, rest = hash >> 4;
        if (rest < 1 << 20)
            rank += 8, rest <<= 8;
        if (rest < 1 << 24)
            rank += 4, rest <<= 4;
        if (rest < 1 << 26)
            rank += 2, rest <<= 2;
        u64 was = accumulator >> place & 15;
        if (rank > was)
            accumulator = (accumulator & ~(15ull << place)) | (u64)(rank & 15) << place;
    }
    return accumulator;
}
