#include "record.h"

/* The greatest of the start and of the numbers in the first eight bytes of each value. */
u64 program(const struct record *record, u64 length, u64 accumulator)
{
    u64 number = record->numbers[0];
    return number > accumulator ? number : accumulator;
}
