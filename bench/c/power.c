#include "record.h"

/* A power with an exponent of eight bits, modulo a prime of 31 bits:
 * a product of 64 bits and a remainder for each bit. */
u64 program(const struct record *record, u64 length, u64 accumulator)
{
    u64 base = record->words[0] & 0x7fffffff, result = 1;
    u32 exponent = record->bytes[4];
#pragma clang loop unroll(full)
    for (int i = 0; i < 8; i++) {
        if (exponent >> i & 1)
            result = result * base % 2147483647;
        base = base * base % 2147483647;
    }
    return accumulator + result;
}
