#include "record.h"

/* A place of two words as six characters of base 32, bits of both in turn:
 * letters are reached over the gaps in the alphabet by comparisons. */
u64 program(const struct record *record, u64 length, u64 accumulator)
{
    u32 east = record->words[0], north = record->words[1];
    u64 text = 0;
#pragma clang loop unroll(full)
    for (int i = 0; i < 6; i++) {
        u32 index = 0;
#pragma clang loop unroll(full)
        for (int bit = 0; bit < 5; bit++) {
            if ((i * 5 + bit) % 2 == 0)
                index = index << 1 | east >> 31, east <<= 1;
            else
                index = index << 1 | north >> 31, north <<= 1;
        }
        u32 letter = index < 10 ? '0' + index : 'b' + index - 10;
        letter += (index > 16) + (index > 18) + (index > 20);
        text = text << 8 | letter;
    }
    return accumulator ^ text;
}
