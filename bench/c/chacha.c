#include "record.h"

static inline u32 rotated(u32 word, int distance)
{
    return word << distance | word >> (32 - distance);
}

/* Two rounds of quarters as in ChaCha, on eight words of the record:
 * additions, exclusive ors and rotations of 32 bits. */
u64 program(const struct record *record, u64 length, u64 accumulator)
{
    u32 a = record->words[0], b = record->words[1], c = record->words[2], d = record->words[3];
    u32 e = record->words[4], f = record->words[5], g = record->words[6], h = record->words[7];
#pragma clang loop unroll(full)
    for (int i = 0; i < 2; i++) {
        a += b, d = rotated(d ^ a, 16), c += d, b = rotated(b ^ c, 12);
        a += b, d = rotated(d ^ a, 8), c += d, b = rotated(b ^ c, 7);
        e += f, h = rotated(h ^ e, 16), g += h, f = rotated(f ^ g, 12);
        e += f, h = rotated(h ^ e, 8), g += h, f = rotated(f ^ g, 7);
    }
    return accumulator ^ ((u64)(a ^ f) << 32 | (c ^ h)) ^ (b + e) ^ (d + g);
}
