#include "record.h"

/* Six bytes as eight characters of base 64, with no table:
 * the place of a character is reached by masks of comparisons. */
u64 program(const struct record *record, u64 length, u64 accumulator)
{
    u64 bits = __builtin_bswap64(record->numbers[0]) >> 16, text = 0;
#pragma clang loop unroll(full)
    for (int i = 0; i < 8; i++) {
        u32 sextet = bits >> (42 - 6 * i) & 63;
        u32 byte = sextet + 'A';
        byte += ((25 - sextet) >> 8 & 6);
        byte -= ((51 - sextet) >> 8 & 75);
        byte -= ((61 - sextet) >> 8 & 15);
        byte += ((62 - sextet) >> 8 & 3);
        text = text << 8 | (u8)byte;
    }
    return accumulator ^ text;
}
