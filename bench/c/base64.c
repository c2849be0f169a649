#include "record.h"

/* Eight characters of base 64 as a number of 48 bits:
 * four ranges for each, and a mark for what lies in none. Over text. */
u64 program(const struct record *record, u64 length, u64 accumulator)
{
    u64 number = 0;
#pragma clang loop unroll(full)
    for (int i = 0; i < 8; i++) {
        u32 byte = record->bytes[i + 8], sextet = 64;
        if (byte >= 'A' && byte <= 'Z')
            sextet = byte - 'A';
        else if (byte >= 'a' && byte <= 'z')
            sextet = byte - 'a' + 26;
        else if (byte >= '0' && byte <= '9')
            sextet = byte - '0' + 52;
        else if (byte == '+')
            sextet = 62;
        else if (byte == '/')
            sextet = 63;
        number = number << 6 | sextet;
    }
    return accumulator + number;
}
