#include "record.h"

/* Seconds of a day as hours, minutes and seconds in decimal nibbles, for two times:
 * quotients and remainders by numbers in the code. */
u64 program(const struct record *record, u64 length, u64 accumulator)
{
#pragma clang loop unroll(full)
    for (int i = 0; i < 2; i++) {
        u32 time = record->words[i] % 86400, hours = time / 3600, minutes = time / 60 % 60, seconds = time % 60;
        u32 shown = hours / 10 << 20 | hours % 10 << 16 | minutes / 10 << 12 | minutes % 10 << 8;
        accumulator += shown | seconds / 10 << 4 | seconds % 10;
    }
    return accumulator;
}
