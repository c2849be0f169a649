#include "record.h"

/* Four rounds of XTEA on two words, with a key in the code:
 * shifts, additions and exclusive ors of 32 bits in one chain. */
u64 program(const struct record *record, u64 length, u64 accumulator)
{
    u32 left = record->words[0] ^ (u32)accumulator, right = record->words[1], sum = 0;
#pragma clang loop unroll(full)
    for (int i = 0; i < 4; i++) {
        left += ((right << 4 ^ right >> 5) + right) ^ (sum + 0x01234567);
        sum += 0x9e3779b9;
        right += ((left << 4 ^ left >> 5) + left) ^ (sum + 0x89abcdef);
    }
    return (u64)left << 32 | right;
}
