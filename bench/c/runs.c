#include "record.h"

/* How many runs of the same bit eight words have:
 * a word beside itself shifted by one place, and its bits counted. */
u64 program(const struct record *record, u64 length, u64 accumulator)
{
#pragma clang loop unroll(full)
    for (int i = 0; i < 8; i++) {
        u32 word = record->words[i], edges = word ^ word >> 1;
        edges = (edges & 0x55555555) + (edges >> 1 & 0x55555555);
        edges = (edges & 0x33333333) + (edges >> 2 & 0x33333333);
        edges = (edges & 0x0f0f0f0f) + (edges >> 4 & 0x0f0f0f0f);
        accumulator += edges * 0x01010101 >> 24;
    }
    return accumulator;
}
