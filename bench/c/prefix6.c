#include "record.h"

/* How many bits two IPv6 addresses have in common in front:
 * an exclusive or in big-endian order, and the zeros in front of it. Over small. */
u64 program(const struct record *record, u64 length, u64 accumulator)
{
    u64 high = __builtin_bswap64(record->numbers[0] ^ record->numbers[2]);
    u64 low = __builtin_bswap64(record->numbers[1] ^ record->numbers[3]);
    u64 common = 0, rest = high;
    if (high == 0)
        common = 64, rest = low;
    if (rest == 0)
        return accumulator + 128;
    if (rest >> 32 == 0)
        common += 32, rest <<= 32;
    if (rest >> 48 == 0)
        common += 16, rest <<= 16;
    if (rest >> 56 == 0)
        common += 8, rest <<= 8;
    if (rest >> 60 == 0)
        common += 4, rest <<= 4;
    if (rest >> 62 == 0)
        common += 2, rest <<= 2;
    return accumulator + common + (rest >> 63 == 0);
}
