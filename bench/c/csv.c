#include "record.h"

/* The third field of a line with commas, as a number:
 * a state is carried over 24 bytes. Over digits. */
u64 program(const struct record *record, u64 length, u64 accumulator)
{
    u32 commas = 0, number = 0;
#pragma clang loop unroll(full)
    for (int i = 0; i < 24; i++) {
        u32 byte = record->bytes[i];
        if (byte == ',')
            commas++;
        else if (commas == 2 && byte - '0' <= 9)
            number = number * 10 + (byte - '0');
    }
    return accumulator + number;
}
