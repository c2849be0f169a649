#include "record.h"

/* The head of an IPv4 packet: what is malformed is counted above bit 48,
 * and of the others lengths and hops are summed up. Over packets. */
u64 program(const struct record *record, u64 length, u64 accumulator)
{
    const u8 *head = record->bytes;
    u32 total = (u32)head[2] << 8 | head[3], words = head[0] & 15;
    if (head[0] >> 4 != 4 || words < 5 || total < words * 4)
        return accumulator + (1ull << 48);
    if (head[8] == 0)
        return accumulator + (1ull << 52);
    u32 fragment = ((u32)head[6] << 8 | head[7]) & 0x3fff;
    if (fragment != 0)
        return accumulator + 1;
    u64 gain = total - words * 4;
    if (head[9] == 6)
        gain += (u64)head[8] << 20;
    else if (head[9] == 17)
        gain += (u64)head[8] << 32;
    return accumulator + gain;
}
