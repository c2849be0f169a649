#include "record.h"

/* A checksum of eight bits with the polynomial 7 over four bytes, bit by bit:
 * a test of the highest bit for each shift. */
u64 program(const struct record *record, u64 length, u64 accumulator)
{
    u8 crc = (u8)accumulator;
#pragma clang loop unroll(full)
    for (int i = 0; i < 4; i++) {
        crc ^= record->bytes[i];
#pragma clang loop unroll(full)
        for (int bit = 0; bit < 8; bit++)
            crc = crc & 0x80 ? (u8)(crc << 1 ^ 7) : (u8)(crc << 1);
    }
    return crc;
}
