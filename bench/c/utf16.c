#include "record.h"

/* Code points of twelve halves, with pairs of surrogates joined, as a sum:
 * the first half of a pair is kept until the second. */
u64 program(const struct record *record, u64 length, u64 accumulator)
{
    u32 kept = 0, sum = 0;
#pragma clang loop unroll(full)
    for (int i = 0; i < 12; i++) {
        u32 half = record->halves[i];
        if ((half & 0xfc00) == 0xd800)
            kept = half;
        else if ((half & 0xfc00) == 0xdc00) {
            sum += kept ? ((kept & 0x3ff) << 10 | (half & 0x3ff)) + 0x10000 : 0xfffd;
            kept = 0;
        } else {
            sum += half;
            kept = 0;
        }
    }
    return accumulator + sum;
}
