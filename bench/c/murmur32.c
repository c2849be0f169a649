#include "record.h"

/* How many words; refused/murmur32.c has more. */
#ifndef WORDS
#define WORDS 8
#endif

static inline u32 rotated(u32 word, int distance)
{
    return word << distance | word >> (32 - distance);
}

/* MurmurHash3 of 32 bits over eight words, and its last mixing:
 * multiplications and rotations of 32 bits. */
u64 program(const struct record *record, u64 length, u64 accumulator)
{
    u32 hash = (u32)accumulator;
#pragma clang loop unroll(full)
    for (int i = 0; i < WORDS; i++) {
        u32 word = rotated(record->words[i] * 0xcc9e2d51, 15) * 0x1b873593;
        hash = rotated(hash ^ word, 13) * 5 + 0xe6546b64;
    }
    hash = (hash ^ hash >> 16) * 0x85ebca6b;
    hash = (hash ^ hash >> 13) * 0xc2b2ae35;
    return hash ^ hash >> 16;
}
