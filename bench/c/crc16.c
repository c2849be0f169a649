#include "record.h"

/* The CRC of CCITT, of 16 bits, over 16 bytes, begun at all ones:
 * a byte at once, by shifts instead of a table. Over text. */
u64 program(const struct record *record, u64 length, u64 accumulator)
{
    u32 crc = 0xffff;
#pragma clang loop unroll(full)
    for (int i = 0; i < 16; i++) {
        u32 high = crc >> 8 ^ record->bytes[i];
        high ^= high >> 4;
        crc = (crc << 8 ^ high << 12 ^ high << 5 ^ high) & 0xffff;
    }
    return accumulator + crc;
}
