#include "record.h"

/* The convolutional code of rate 1/2 and length 7 of 32 bits, against the 64 bits received:
 * both polynomials over all bits at once, then interleaved, and the errors counted. */
static inline u64 spread(u64 x)
{
    x = (x | x << 16) & 0x0000ffff0000ffffull;
    x = (x | x << 8) & 0x00ff00ff00ff00ffull;
    x = (x | x << 4) & 0x0f0f0f0f0f0f0f0full;
    x = (x | x << 2) & 0x3333333333333333ull;
    return (x | x << 1) & 0x5555555555555555ull;
}

u64 program(const struct record *record, u64 length, u64 accumulator)
{
    u64 bits = (u64)record->words[0] << 6 | (accumulator & 63);
    u32 first = bits ^ bits >> 1 ^ bits >> 3 ^ bits >> 4 ^ bits >> 6;
    u32 second = bits ^ bits >> 3 ^ bits >> 4 ^ bits >> 5 ^ bits >> 6;
    u64 wrong = (spread(first) | spread(second) << 1) ^ record->numbers[1];
    wrong -= wrong >> 1 & 0x5555555555555555ull;
    wrong = (wrong & 0x3333333333333333ull) + (wrong >> 2 & 0x3333333333333333ull);
    wrong = (wrong + (wrong >> 4)) & 0x0f0f0f0f0f0f0f0full;
    return accumulator + (wrong * 0x0101010101010101ull >> 56);
}
