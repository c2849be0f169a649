#include "record.h"

/* A count-min sketch of sources, two rows of four counters of eight bits in the accumulator:
 * only the lesser counter rises, and all are halved before one is full. Over packets. */
u64 program(const struct record *record, u64 length, u64 accumulator)
{
    u32 source = record->words[3];
    u32 first = (source * 0x9e3779b1 >> 30) * 8;
    u32 second = (source * 0x85ebca6b >> 30) * 8 + 32;
    u32 one = accumulator >> first & 255;
    u32 two = accumulator >> second & 255;
    u32 least = one < two ? one : two;
    if (least == 255) {
        accumulator = accumulator >> 1 & 0x7f7f7f7f7f7f7f7full;
        one >>= 1;
        two >>= 1;
        least >>= 1;
    }
    if (one == least)
        accumulator += 1ull << first;
    if (two == least)
        accumulator += 1ull << second;
    return accumulator;
}
