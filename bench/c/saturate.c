#include "record.h"

/* Sums and differences of words that stop at the ends of their range:
 * a comparison with what was before finds the overflow, in 32 bits. */
u64 program(const struct record *record, u64 length, u64 accumulator)
{
    u32 sum = (u32)accumulator;
#pragma clang loop unroll(full)
    for (int i = 0; i < 12; i += 2) {
        u32 more = sum + record->words[i];
        sum = more < sum ? 0xffffffff : more;
        u32 less = sum - record->words[i + 1];
        sum = less > sum ? 0 : less;
    }
    return sum;
}
