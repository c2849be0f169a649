#include "record.h"

/* Six numbers in Gray's code, as plain numbers, and their sum:
 * six exclusive ors with shifted ones each. */
u64 program(const struct record *record, u64 length, u64 accumulator)
{
#pragma clang loop unroll(full)
    for (int i = 0; i < 6; i++) {
        u64 number = record->numbers[i];
        number ^= number >> 1;
        number ^= number >> 2;
        number ^= number >> 4;
        number ^= number >> 8;
        number ^= number >> 16;
        number ^= number >> 32;
        accumulator += number;
    }
    return accumulator;
}
