#include "record.h"

/* Ten steps of the binary algorithm for the greatest common divisor:
 * halvings and differences, with no division. */
u64 program(const struct record *record, u64 length, u64 accumulator)
{
    u32 a = record->words[0] | 1, b = record->words[1] | 1;
#pragma clang loop unroll(full)
    for (int i = 0; i < 10; i++) {
        if (a < b) {
            u32 other = a;
            a = b;
            b = other;
        }
        a -= b;
        if (a & 1)
            a += b;
        else
            a >>= 1;
    }
    return accumulator + (a ^ b);
}
