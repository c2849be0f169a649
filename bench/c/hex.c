#include "record.h"

/* Four bytes as eight hexadecimal digits of text:
 * a comparison for each digit, as letters do not follow figures. */
u64 program(const struct record *record, u64 length, u64 accumulator)
{
    u64 text = 0;
#pragma clang loop unroll(full)
    for (int i = 0; i < 4; i++) {
        u32 high = record->bytes[i] >> 4, low = record->bytes[i] & 15;
        text = text << 8 | (high < 10 ? '0' + high : 'a' - 10 + high);
        text = text << 8 | (low < 10 ? '0' + low : 'a' - 10 + low);
    }
    return accumulator ^ text;
}
