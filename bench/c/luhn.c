#include "record.h"

/* Luhn's check of sixteen digits:
 * every other digit is doubled, and nine is taken off where it is above nine. Over digits. */
u64 program(const struct record *record, u64 length, u64 accumulator)
{
    u32 sum = 0;
#pragma clang loop unroll(full)
    for (int i = 0; i < 16; i++) {
        u32 digit = record->bytes[i] & 15;
        if (i % 2 == 0) {
            digit *= 2;
            if (digit > 9)
                digit -= 9;
        }
        sum += digit;
    }
    return accumulator + (sum % 10 == 0);
}
