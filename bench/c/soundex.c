#include "record.h"

/* The Soundex code of eight bytes: the first letter, and up to three digits of consonants,
 * each digit from three masks of letters, and none twice in a row. Over text. */
u64 program(const struct record *record, u64 length, u64 accumulator)
{
    u32 code = (record->bytes[0] | 32) - 'a', count = 0, last = 0;
#pragma clang loop unroll(full)
    for (int i = 1; i < 8; i++) {
        u32 letter = (record->bytes[i] | 32) - 'a';
        u32 digit = 0;
        if (letter < 26)
            digit = (0x28b02a >> letter & 1) | (0x28f064c >> letter & 1) << 1 | (0x23800 >> letter & 1) << 2;
        if (digit != 0 && digit != last && count < 3) {
            code = code << 3 | digit;
            count++;
        }
        last = digit;
    }
    code <<= 3 * (3 - count);
    return accumulator + code;
}
