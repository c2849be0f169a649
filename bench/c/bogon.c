#include "record.h"

/* Packets whose source or target cannot stand on the open Internet, counted apart:
 * each address is held against the reserved prefixes. Over packets. */
static inline __attribute__((always_inline)) u32 reserved(u32 address)
{
    return address >> 24 == 0 || address >> 24 == 10 || address >> 24 == 127
        || address >> 22 == 0x6440 >> 6 || address >> 16 == 0xa9fe || address >> 20 == 0xac1
        || address >> 8 == 0xc00000 || address >> 8 == 0xc00002 || address >> 16 == 0xc0a8
        || address >> 17 == 0xc612 >> 1 || address >> 8 == 0xc63364 || address >> 8 == 0xcb0071;
}

u64 program(const struct record *record, u64 length, u64 accumulator)
{
    u32 source = __builtin_bswap32(record->words[3]);
    u32 target = __builtin_bswap32(record->words[4]);
    if (record->bytes[0] >> 4 != 4)
        return accumulator;
    if (source >= 0xe0000000 || reserved(source))
        accumulator += 1;
    if (target >= 0xf0000000 || reserved(target))
        accumulator += 1ull << 32;
    return accumulator;
}
