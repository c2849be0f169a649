#include "record.h"

/* How many palindromes of three, five and seven bytes stand in the first 16:
 * around each middle while both sides are alike. Over digits. */
u64 program(const struct record *record, u64 length, u64 accumulator)
{
    u32 count = 0;
#pragma clang loop unroll(full)
    for (int i = 3; i < 13; i++) {
        u32 alike = 1;
#pragma clang loop unroll(full)
        for (int j = 1; j < 4; j++) {
            alike &= record->bytes[i - j] == record->bytes[i + j];
            count += alike;
        }
    }
    return accumulator + count;
}
