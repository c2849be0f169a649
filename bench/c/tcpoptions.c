#include "record.h"

/* The largest segment and the window scale that the options of a segment offer:
 * four steps from option to option, each shifted out of eight bytes. Over packets. */
u64 program(const struct record *record, u64 length, u64 accumulator)
{
    if (record->bytes[0] != 0x45 || record->bytes[9] != 6)
        return accumulator;
    u32 left = (record->bytes[32] >> 4) * 4;
    if (left < 20)
        return accumulator + (1ull << 48);
    left -= 20;
    if (left > 8)
        left = 8;
    u64 options = __builtin_bswap64(record->numbers[5]);
    u32 mss = 536, scale = 0, bad = 0;
#pragma clang loop unroll(full)
    for (int i = 0; i < 4; i++) {
        u32 kind = options >> 56, size = options >> 48 & 0xff;
        if (kind == 0)
            left = 0;
        if (kind == 1)
            size = 1;
        if (left > 0) {
            if (size < 1 + (kind != 1) || size > left) {
                bad = 1;
                left = 0;
            } else {
                if (kind == 2 && size == 4)
                    mss = options >> 32 & 0xffff;
                if (kind == 3 && size == 3)
                    scale = options >> 40 & 0xff;
                left -= size;
                options <<= size * 8 & 63;
            }
        }
    }
    if (scale > 14)
        scale = 14;
    return accumulator + mss + ((u64)scale << 32) + ((u64)bad << 48);
}
