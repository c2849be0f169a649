#include "record.h"

/* The head of Ethernet: groups, own addresses and tags of a network, and the kind behind:
 * fields of six and two bytes at places that are not aligned. */
u64 program(const struct record *record, u64 length, u64 accumulator)
{
    const u8 *head = record->bytes;
    u64 to = (u64)head[0] << 40 | (u64)head[1] << 32 | (u32)head[2] << 24 | (u32)head[3] << 16
           | (u32)head[4] << 8 | head[5];
    u32 kind = (u32)head[12] << 8 | head[13], tag = 0;
    if ((kind & 0x00ff) < 64) {
        tag = ((u32)head[14] << 8 | head[15]) & 0xfff;
        kind = (u32)head[16] << 8 | head[17];
    }
    if (to >> 40 & 1)
        accumulator += 1ull << 48;
    if (to >> 40 & 2)
        accumulator += 1ull << 32;
    return accumulator + tag + (kind >= 0x600 ? 1 << 20 : 0);
}
