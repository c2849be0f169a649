#include "record.h"

/* A filter by node and value: how many nodes from 2 on have a value from 5 to 20. */
u64 program(const struct record *record, u64 length, u64 accumulator)
{
    u64 number = record->numbers[0];
    if (record->node < 2 || number < 5 || number > 20)
        return accumulator;
    return accumulator + 1;
}
