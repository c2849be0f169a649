#include "record.h"

/* A hash of 16 bytes in title case: the first letter of a word large, the others small,
 * by whether a letter stood before. Over text. */
u64 program(const struct record *record, u64 length, u64 accumulator)
{
    u32 inside = 0, hash = 0;
#pragma clang loop unroll(full)
    for (int i = 0; i < 16; i++) {
        u32 byte = record->bytes[i];
        u32 letter = (byte | 32) - 'a' < 26;
        if (letter)
            byte = inside ? byte | 32 : byte & ~32u;
        inside = letter;
        hash = hash * 31 + byte;
    }
    return accumulator + hash;
}
