#include "record.h"

/* The weekdays of three dates, each in a digit of base seven:
 * a shift of the month, and a remainder by seven. */
u64 program(const struct record *record, u64 length, u64 accumulator)
{
#pragma clang loop unroll(full)
    for (int i = 0; i < 3; i++) {
        u32 day = record->bytes[i * 4] % 28 + 1, month = record->bytes[i * 4 + 1] % 12 + 1;
        u32 year = 1600 + record->halves[i * 2 + 1] % 800;
        if (month < 3)
            month += 12, year--;
        u32 weekday = (day + 13 * (month + 1) / 5 + year + year / 4 - year / 100 + year / 400) % 7;
        accumulator = accumulator * 7 + weekday;
    }
    return accumulator;
}
