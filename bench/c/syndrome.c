#include "record.h"

/* The first three syndromes of a Reed-Solomon word of twelve bytes:
 * Horner's rule in GF(256), where a shift and a mask multiply by two. */
static inline u32 doubled(u32 x)
{
    return (x << 1 ^ (-(x >> 7) & 0x11d)) & 0xff;
}

u64 program(const struct record *record, u64 length, u64 accumulator)
{
    u32 s0 = 0, s1 = 0, s2 = 0;
#pragma clang loop unroll(full)
    for (int i = 0; i < 12; i++) {
        u32 byte = record->bytes[i];
        s0 ^= byte;
        s1 = doubled(s1) ^ byte;
        s2 = doubled(doubled(s2)) ^ byte;
    }
    if ((s0 | s1 | s2) == 0)
        return accumulator;
    return accumulator + (1ull << 32) + (s0 << 16 | s1 << 8 | s2);
}
