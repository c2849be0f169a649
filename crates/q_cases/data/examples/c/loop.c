#include "record.h"

/* Refused: a program goes forward only, and clang does not unroll a loop whose rounds it cannot count. */
u64 program(const struct record *record, u64 length, u64 accumulator)
{
    u64 sum = accumulator;
    for (u64 i = RECORD_HEAD; i < length; i++)
        sum += record->bytes[i - RECORD_HEAD];
    return sum;
}
