#include "record.h"

/* A decimal number of at most ten digits from the start of a text:
 * it ends at the first byte that is no digit. Over digits. */
u64 program(const struct record *record, u64 length, u64 accumulator)
{
    u64 number = 0;
    int more = 1;
#pragma clang loop unroll(full)
    for (int i = 0; i < 10; i++) {
        u32 digit = (u32)record->bytes[i] - '0';
        if (digit > 9)
            more = 0;
        if (more)
            number = number * 10 + digit;
    }
    return accumulator + number;
}
