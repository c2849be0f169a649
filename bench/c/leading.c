#include "record.h"

/* The number of zeros in front of each of three numbers, summed up:
 * six comparisons each, which halve the places left. Over small. */
u64 program(const struct record *record, u64 length, u64 accumulator)
{
#pragma clang loop unroll(full)
    for (int i = 0; i < 3; i++) {
        u64 number = record->numbers[i];
        u64 zeros = 0;
        if (number >> 32 == 0)
            zeros += 32, number <<= 32;
        if (number >> 48 == 0)
            zeros += 16, number <<= 16;
        if (number >> 56 == 0)
            zeros += 8, number <<= 8;
        if (number >> 60 == 0)
            zeros += 4, number <<= 4;
        if (number >> 62 == 0)
            zeros += 2, number <<= 2;
        if (number >> 63 == 0)
            zeros += 1;
        accumulator += zeros;
    }
    return accumulator;
}
