#include "record.h"

/* An estimate of the upper quartile of twelve words, with one number kept:
 * it goes up by three or down by one. */
u64 program(const struct record *record, u64 length, u64 accumulator)
{
    u32 estimate = (u32)accumulator;
#pragma clang loop unroll(full)
    for (int i = 0; i < 12; i++) {
        u32 word = record->words[i] >> 8;
        if (word > estimate)
            estimate += 3000;
        else if (word < estimate)
            estimate -= 1000;
    }
    return estimate;
}
