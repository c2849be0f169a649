#include "record.h"

/* The sum of the first eight bytes of each value that has as many. It asks the length before it reads a value, so it is
 * checked for records of every length, and needs no --least. */
u64 program(const struct record *record, u64 length, u64 accumulator)
{
    if (length < RECORD_HEAD + 8)
        return accumulator;
    return accumulator + record->numbers[0];
}
