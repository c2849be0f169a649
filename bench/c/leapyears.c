#include "record.h"

/* How many of sixteen years are leap years:
 * tests of the lowest bits and remainders by 25. */
u64 program(const struct record *record, u64 length, u64 accumulator)
{
#pragma clang loop unroll(full)
    for (int i = 0; i < 16; i++) {
        u32 year = record->halves[i];
        if ((year & 3) == 0 && (year % 25 != 0 || (year & 15) == 0))
            accumulator++;
    }
    return accumulator;
}
