#include "record.h"

/* How often four bytes stand in the eight behind, with one byte wrong at most:
 * Shift-And with a word of bits for no error and one for one. Over text. */
u64 program(const struct record *record, u64 length, u64 accumulator)
{
    u32 exact = 0, near = 0, count = 0;
#pragma clang loop unroll(full)
    for (int i = 4; i < 12; i++) {
        u32 byte = record->bytes[i];
        u32 mask = (byte == record->bytes[0]) | (byte == record->bytes[1]) << 1
            | (byte == record->bytes[2]) << 2 | (byte == record->bytes[3]) << 3;
        u32 wrong = exact << 1 | 1;
        exact = wrong & mask;
        near = ((near << 1 | 1) & mask) | wrong;
        count += near >> 3 & 1;
    }
    return accumulator + count + ((u64)(exact >> 3 & 1) << 32);
}
