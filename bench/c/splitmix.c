#include "record.h"

/* Six steps of splitmix64, each over a number of the record:
 * two multiplications of 64 bits by large numbers. */
u64 program(const struct record *record, u64 length, u64 accumulator)
{
#pragma clang loop unroll(full)
    for (int i = 0; i < 6; i++) {
        u64 z = record->numbers[i] + 0x9e3779b97f4a7c15;
        z = (z ^ z >> 30) * 0xbf58476d1ce4e5b9;
        z = (z ^ z >> 27) * 0x94d049bb133111eb;
        accumulator += z ^ z >> 31;
    }
    return accumulator;
}
