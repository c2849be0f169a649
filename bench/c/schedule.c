#include "record.h"

/* How many words; refused/schedule.c has more. */
#ifndef WORDS
#define WORDS 3
#endif

static inline u32 rotated(u32 word, int distance)
{
    return word >> distance | word << (32 - distance);
}

/* Three words of the message schedule of SHA-256:
 * rotations and shifts of 32 bits that are joined by exclusive ors. */
u64 program(const struct record *record, u64 length, u64 accumulator)
{
    u32 sum = (u32)accumulator;
#pragma clang loop unroll(full)
    for (int i = 0; i < WORDS; i++) {
        u32 early = record->words[i + 1], late = record->words[i + 7];
        u32 small = rotated(early, 7) ^ rotated(early, 18) ^ early >> 3;
        u32 large = rotated(late, 17) ^ rotated(late, 19) ^ late >> 10;
        sum += record->words[i] + small + record->words[i + 5] + large;
    }
    return sum;
}
