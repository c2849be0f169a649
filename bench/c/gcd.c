#include "record.h"

/* Eight steps of Euclid's algorithm on two halves of a record:
 * a remainder by a number of the record for each step. */
u64 program(const struct record *record, u64 length, u64 accumulator)
{
    u32 a = record->halves[0], b = record->halves[1];
#pragma clang loop unroll(full)
    for (int i = 0; i < 8; i++)
        if (b != 0) {
            u32 rest = a % b;
            a = b;
            b = rest;
        }
    return accumulator + a;
}
