#include "record.h"

/* Twelve rounds of SHA-1, whose first word comes from the accumulator:
 * words of the highest byte first, and the choice by the first function. Over text. */
static inline u32 rotated(u32 x, int by)
{
    return x << by | x >> (32 - by);
}

u64 program(const struct record *record, u64 length, u64 accumulator)
{
    u32 a = 0x67452301 ^ (u32)accumulator, b = 0xefcdab89, c = 0x98badcfe, d = 0x10325476, e = 0xc3d2e1f0;
#pragma clang loop unroll(full)
    for (int i = 0; i < 12; i++) {
        u32 next = rotated(a, 5) + (d ^ (b & (c ^ d))) + e + 0x5a827999 + __builtin_bswap32(record->words[i]);
        e = d;
        d = c;
        c = rotated(b, 30);
        b = a;
        a = next;
    }
    return accumulator + ((u64)(a ^ c) << 32 | (b ^ d ^ e));
}
