#include "record.h"

/* Adler-32 over 24 bytes:
 * two sums, and a remainder of each by 65521 at the end. */
u64 program(const struct record *record, u64 length, u64 accumulator)
{
    u32 low = accumulator & 0xffff, high = accumulator >> 16 & 0xffff;
#pragma clang loop unroll(full)
    for (int i = 0; i < 24; i++) {
        low += record->bytes[i];
        high += low;
    }
    return high % 65521 << 16 | low % 65521;
}
