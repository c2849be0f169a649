#include "record.h"

/* A stack of MPLS labels, six at most: its depth, its lowest TTL and a mix of its labels,
 * where reserved labels are left out and the bottom ends it. */
u64 program(const struct record *record, u64 length, u64 accumulator)
{
    u32 open = 1, depth = 0, least = 255, mix = 0;
#pragma clang loop unroll(full)
    for (int i = 0; i < 6; i++) {
        u32 entry = __builtin_bswap32(record->words[i]);
        u32 label = entry >> 12, ttl = entry & 0xff;
        if (open) {
            depth++;
            if (ttl < least)
                least = ttl;
            if (label > 15)
                mix = (mix << 5 | mix >> 27) ^ label;
            else if (label == 7)
                mix += entry >> 9 & 7;
            if (entry & 0x100)
                open = 0;
        }
    }
    if (open || least == 0)
        return accumulator + (1ull << 56);
    return accumulator + mix + ((u64)depth << 40);
}
