#include "record.h"

/* The longest of nine prefixes that an IPv4 address lies in, of source and target:
 * the mask and the comparison of each are numbers in the code. Over packets. */
u64 program(const struct record *record, u64 length, u64 accumulator)
{
#pragma clang loop unroll(full)
    for (int i = 3; i < 5; i++) {
        u32 address = __builtin_bswap32(record->words[i]);
        u32 hop = 0;
        if (address >> 24 == 10)
            hop = 1;
        if (address >> 20 == 0xac1)
            hop = 2;
        if (address >> 16 == 0xc0a8)
            hop = 3;
        if (address >> 16 == 0x0a01)
            hop = 4;
        if (address >> 12 == 0xc0a81)
            hop = 5;
        if (address >> 8 == 0x0a0102)
            hop = 6;
        if (address >> 8 == 0xc0a801)
            hop = 7;
        if (address == 0xc0a80101)
            hop = 8;
        accumulator = accumulator * 9 + hop;
    }
    return accumulator;
}
