#include "record.h"

/* Fletcher's checksum of 16 bits over 16 bytes:
 * after each byte both sums are reduced by 255 with a comparison. */
u64 program(const struct record *record, u64 length, u64 accumulator)
{
    u32 low = accumulator & 0xff, high = accumulator >> 8 & 0xff;
#pragma clang loop unroll(full)
    for (int i = 0; i < 16; i++) {
        low += record->bytes[i];
        if (low >= 255)
            low -= 255;
        high += low;
        if (high >= 255)
            high -= 255;
    }
    return high << 8 | low;
}
