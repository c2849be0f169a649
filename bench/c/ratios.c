#include "record.h"

/* Five quotients of numbers by others of the record, as parts of a thousand:
 * the machine's division, which nothing replaces. */
u64 program(const struct record *record, u64 length, u64 accumulator)
{
#pragma clang loop unroll(full)
    for (int i = 0; i < 5; i++) {
        u64 part = record->numbers[i] >> 16, whole = record->numbers[i + 1] >> 16;
        if (whole != 0)
            accumulator += part * 1000 / whole;
    }
    return accumulator;
}
