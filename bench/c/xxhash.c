#include "record.h"

static inline u32 rotated(u32 word, int distance)
{
    return word << distance | word >> (32 - distance);
}

static inline u32 mixed(u32 lane, u32 word)
{
    return rotated(lane + word * 0x85ebca77, 13) * 0x9e3779b1;
}

/* Four lanes of 32 bits as in xxHash, over 32 bytes, and how they are joined:
 * four chains of multiplications and rotations side by side. */
u64 program(const struct record *record, u64 length, u64 accumulator)
{
    u32 a = (u32)accumulator + 0x24234428, b = (u32)accumulator + 0x85ebca77;
    u32 c = (u32)accumulator, d = (u32)accumulator - 0x9e3779b1;
#pragma clang loop unroll(full)
    for (int i = 0; i < 8; i += 4) {
        a = mixed(a, record->words[i]);
        b = mixed(b, record->words[i + 1]);
        c = mixed(c, record->words[i + 2]);
        d = mixed(d, record->words[i + 3]);
    }
    u32 hash = rotated(a, 1) + rotated(b, 7) + rotated(c, 12) + rotated(d, 18) + 32;
    hash = (hash ^ hash >> 15) * 0x85ebca77;
    hash = (hash ^ hash >> 13) * 0xc2b2ae3d;
    return hash ^ hash >> 16;
}
