#include "record.h"

/* The checksum of Ethernet over four bytes, bit by bit without branches:
 * a mask made of the lowest bit for each shift, in 32 bits. */
u64 program(const struct record *record, u64 length, u64 accumulator)
{
    u32 crc = ~(u32)accumulator ^ record->words[0];
#pragma clang loop unroll(full)
    for (int bit = 0; bit < 32; bit++)
        crc = crc >> 1 ^ (0xedb88320 & -(crc & 1));
    return ~crc;
}
