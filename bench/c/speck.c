#include "record.h"

/* Ten rounds of Speck on two words, with round keys of the record:
 * a rotation, an addition and two exclusive ors each. */
u64 program(const struct record *record, u64 length, u64 accumulator)
{
    u32 left = (u32)accumulator, right = (u32)(accumulator >> 32);
#pragma clang loop unroll(full)
    for (int i = 0; i < 10; i++) {
        left = ((left >> 8 | left << 24) + right) ^ record->words[i];
        right = (right << 3 | right >> 29) ^ left;
    }
    return (u64)right << 32 | left;
}
