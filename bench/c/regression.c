#include "record.h"

/* The slope of the line of least squares through sixteen values, in 1/256:
 * the sums of the values and of their products with the place are enough. Over chains. */
u64 program(const struct record *record, u64 length, u64 accumulator)
{
    u32 sum = 0, products = 0;
#pragma clang loop unroll(full)
    for (u32 i = 0; i < 16; i++) {
        u32 value = record->bytes[i];
        sum += value;
        products += i * value;
    }
    s32 upper = (s32)(16 * products) - (s32)(120 * sum);
    u32 slope = (u32)(upper < 0 ? -upper : upper) * 256 / (16 * 1240 - 120 * 120);
    if (upper < 0)
        return accumulator - slope;
    return accumulator + slope;
}
