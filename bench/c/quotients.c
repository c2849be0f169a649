#include "record.h"

/* Signed quotients and remainders of eight pairs of halves, in 32 bits:
 * division with a sign, which is of BPF's version 4. */
u64 program(const struct record *record, u64 length, u64 accumulator)
{
    s32 sum = 0;
#pragma clang loop unroll(full)
    for (int i = 0; i < 8; i++) {
        s32 part = (s16)record->halves[i], whole = (s16)record->halves[i + 8];
        if (whole != 0)
            sum += part / whole + part % whole;
    }
    return accumulator + (u64)(s64)sum;
}
