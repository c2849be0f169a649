#include "record.h"

/* Signed bytes, halves and words of a record, added in 64 bits:
 * each is widened with its sign. */
u64 program(const struct record *record, u64 length, u64 accumulator)
{
    s64 sum = 0;
#pragma clang loop unroll(full)
    for (int i = 0; i < 8; i++) {
        sum += (s8)record->bytes[i] * 5;
        sum -= (s16)record->halves[i + 4];
        sum += (s32)record->words[i / 2 + 8];
    }
    return accumulator + (u64)sum;
}
