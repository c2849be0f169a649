#include "record.h"

/* Differences of twelve words with their sign in the lowest bit, summed up:
 * the sign is spread over the word by a negation. */
u64 program(const struct record *record, u64 length, u64 accumulator)
{
    u32 last = (u32)accumulator, sum = 0;
#pragma clang loop unroll(full)
    for (int i = 0; i < 12; i++) {
        u32 word = record->words[i];
        last += word >> 1 ^ -(word & 1);
        sum ^= last;
    }
    return (u64)sum << 32 | last;
}
