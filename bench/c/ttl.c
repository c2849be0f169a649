#include "record.h"

/* How many hops packets have come, as a histogram of eight classes in eight bytes:
 * the TTL is taken from the next start that systems use. Over packets. */
u64 program(const struct record *record, u64 length, u64 accumulator)
{
    if (record->bytes[0] >> 4 != 4)
        return accumulator;
    u32 ttl = record->bytes[8];
    u32 start = ttl <= 32 ? 32 : ttl <= 64 ? 64 : ttl <= 128 ? 128 : 255;
    u32 hops = start - ttl;
    u32 class = 0;
    if (hops >= 2)
        class = 1;
    if (hops >= 5)
        class = 2;
    if (hops >= 9)
        class = 3;
    if (hops >= 14)
        class = 4;
    if (hops >= 20)
        class = 5;
    if (hops >= 27)
        class = 6;
    if (hops >= 40)
        class = 7;
    u64 lane = 0xffull << (class * 8);
    if ((accumulator & lane) == lane)
        accumulator = accumulator >> 1 & 0x7f7f7f7f7f7f7f7f;
    return accumulator + (1ull << (class * 8));
}
