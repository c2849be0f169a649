#include "record.h"

/* One in sixteen of the records by a hash of their flow, with the bytes it stands for:
 * addresses and ports are mixed, and the lowest bits are tested. Over packets. */
u64 program(const struct record *record, u64 length, u64 accumulator)
{
    u32 flow = record->words[3] ^ record->words[4] * 0x9e3779b1;
    flow = (flow ^ record->words[5]) * 0x85ebca6b;
    flow ^= flow >> 15;
    if (flow & 15)
        return accumulator;
    return accumulator + 16 * (u64)__builtin_bswap16(record->halves[1]);
}
