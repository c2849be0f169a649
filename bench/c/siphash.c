#include "record.h"

static inline u64 rotated(u64 word, int distance)
{
    return word << distance | word >> (64 - distance);
}

/* SipHash with one round for each of three numbers and two at its end:
 * additions, rotations and exclusive ors of 64 bits on four words. */
u64 program(const struct record *record, u64 length, u64 accumulator)
{
    u64 a = accumulator ^ 0x736f6d6570736575, b = 0x646f72616e646f6d;
    u64 c = accumulator ^ 0x6c7967656e657261, d = 0x7465646279746573;
#pragma clang loop unroll(full)
    for (int i = 0; i < 5; i++) {
        u64 number = i < 3 ? record->numbers[i] : 0;
        d ^= number;
        a += b, c += d;
        b = rotated(b, 13) ^ a, d = rotated(d, 16) ^ c;
        a = rotated(a, 32) + d, c += b;
        b = rotated(b, 17) ^ c, d = rotated(d, 21) ^ a;
        c = rotated(c, 32);
        a ^= number;
    }
    return a ^ b ^ c ^ d;
}
