#include "record.h"

/* Fields of two, four and eight bytes in big-endian order, mixed with the accumulator:
 * what is read is turned around by one instruction each. */
u64 program(const struct record *record, u64 length, u64 accumulator)
{
#pragma clang loop unroll(full)
    for (int i = 0; i < 3; i++) {
        u64 large = __builtin_bswap64(record->numbers[i * 2]);
        u32 word = __builtin_bswap32(record->words[i * 4 + 2]);
        u16 half = __builtin_bswap16(record->halves[i * 8 + 6]);
        accumulator = (accumulator ^ large) + word * 3ull - half;
    }
    return __builtin_bswap64(accumulator);
}
