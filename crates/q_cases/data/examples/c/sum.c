#include "record.h"

/* The sum of the numbers in the first eight bytes of each value, modulo 2^64. */
u64 program(const struct record *record, u64 length, u64 accumulator)
{
    return accumulator + record->numbers[0];
}
