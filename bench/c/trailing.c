#include "record.h"

/* The place of the lowest bit of six numbers, summed up:
 * the bit alone is tested against six masks. */
u64 program(const struct record *record, u64 length, u64 accumulator)
{
#pragma clang loop unroll(full)
    for (int i = 0; i < 6; i++) {
        u64 lowest = record->numbers[i] & -record->numbers[i];
        accumulator += lowest == 0;
        accumulator += lowest & 0xffffffff00000000 ? 32 : 0;
        accumulator += lowest & 0xffff0000ffff0000 ? 16 : 0;
        accumulator += lowest & 0xff00ff00ff00ff00 ? 8 : 0;
        accumulator += lowest & 0xf0f0f0f0f0f0f0f0 ? 4 : 0;
        accumulator += lowest & 0xcccccccccccccccc ? 2 : 0;
        accumulator += lowest & 0xaaaaaaaaaaaaaaaa ? 1 : 0;
    }
    return accumulator;
}
