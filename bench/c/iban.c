#include "record.h"

/* Whether the check digits of a German IBAN hold, of its 20 digits:
 * the remainder by 97 must be 1, with the country and the check behind. Over digits. */
u64 program(const struct record *record, u64 length, u64 accumulator)
{
    u32 remainder = 0;
#pragma clang loop unroll(full)
    for (int i = 2; i < 20; i++) {
        u32 digit = record->bytes[i] - '0';
        if (digit < 10)
            remainder = (remainder * 10 + digit) % 97;
    }
    u32 check = (record->bytes[0] - '0') * 10 + record->bytes[1] - '0';
    remainder = (remainder * 10000 + 1314) % 97;
    remainder = (remainder * 100 + (check & 127)) % 97;
    return accumulator + (remainder == 1 ? 1ull << 32 : remainder);
}
