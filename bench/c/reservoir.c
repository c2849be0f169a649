#include "record.h"

/* One of all words, each with the same chance, from a stream of six a record:
 * a remainder by the count decides. */
u64 program(const struct record *record, u64 length, u64 accumulator)
{
    u32 count = accumulator >> 48, kept = (u32)accumulator;
#pragma clang loop unroll(full)
    for (int i = 0; i < 6; i++) {
        count = (count & 0x7fff) + 1;
        if (record->words[i * 2] % count == 0)
            kept = record->words[i * 2 + 1];
    }
    return (u64)count << 48 | kept;
}
