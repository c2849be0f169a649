#include "record.h"

/* A hash of 20 letters that takes large and small ones alike:
 * a range, a bit set, a product of 32 bits. Over text. */
u64 program(const struct record *record, u64 length, u64 accumulator)
{
    u32 hash = (u32)accumulator;
#pragma clang loop unroll(full)
    for (int i = 0; i < 20; i++) {
        u32 byte = record->bytes[i];
        if (byte - 'A' < 26)
            byte |= 0x20;
        hash = hash * 31 + byte;
    }
    return hash;
}
