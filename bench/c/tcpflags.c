#include "record.h"

/* Flags of TCP behind a head of IPv4 with no options:
 * connections that begin, end or are refused, and flags that no stack sends. Over packets. */
u64 program(const struct record *record, u64 length, u64 accumulator)
{
    const u8 *tcp = record->bytes + 20;
    if (record->bytes[0] != 0x45 || record->bytes[9] != 6)
        return accumulator;
    u32 flags = tcp[13] & 0x3f;
    if ((flags & 3) == 3 || flags == 0 || (flags & 6) == 6)
        return accumulator + (1ull << 48);
    if (flags & 4)
        return accumulator + (1ull << 32);
    if ((flags & 0x12) == 2)
        return accumulator + (1ull << 16);
    return accumulator + (flags & 1);
}
