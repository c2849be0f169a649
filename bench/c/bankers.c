#include "record.h"

/* Nineteen percent of each of six amounts of four digits, rounded to cents:
 * a half goes to the even neighbour, as banks do it. Over digits. */
u64 program(const struct record *record, u64 length, u64 accumulator)
{
    u32 sum = 0;
#pragma clang loop unroll(full)
    for (int i = 0; i < 24; i += 4) {
        u32 amount = (record->bytes[i] & 15) * 1000 + (record->bytes[i + 1] & 15) * 100
            + (record->bytes[i + 2] & 15) * 10 + (record->bytes[i + 3] & 15);
        u32 product = amount * 19;
        u32 cents = product / 100;
        u32 rest = product % 100;
        if (rest > 50 || (rest == 50 && cents & 1))
            cents++;
        sum += cents;
    }
    return accumulator + sum;
}
