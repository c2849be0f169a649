#include "record.h"

/* The check of an ISBN of ten places, the last of which may be an X, for two of them:
 * a weighted sum and its remainder by eleven. Over digits. */
u64 program(const struct record *record, u64 length, u64 accumulator)
{
#pragma clang loop unroll(full)
    for (int part = 0; part < 2; part++) {
        u32 sum = 0, bad = 0;
#pragma clang loop unroll(full)
        for (u32 i = 0; i < 10; i++) {
            u32 byte = record->bytes[part * 10 + i], digit = byte - '0';
            if (i == 9 && byte == 'X')
                digit = 10;
            else if (digit > 9)
                bad = 1, digit = 0;
            sum += (10 - i) * digit;
        }
        accumulator += bad ? 1ull << 32 : sum % 11 == 0;
    }
    return accumulator;
}
