#include "record.h"

/* The first of eight rules that a packet meets, by address, protocol and a range of ports;
 * the counts of what was let through and what was not. Over packets. */
u64 program(const struct record *record, u64 length, u64 accumulator)
{
    u32 from = __builtin_bswap32(record->words[3]), to = __builtin_bswap32(record->words[4]);
    u32 port = __builtin_bswap16(record->halves[11]), protocol = record->bytes[9];
    u64 passed = 1, denied = 1ull << 32;
    if (from >> 24 == 127 || from >> 28 == 14)
        return accumulator + denied;
    if (protocol == 1)
        return accumulator + passed;
    if (to >> 16 == 0xc0a8 && port == 22)
        return accumulator + (from >> 24 == 10 ? passed : denied);
    if (protocol == 6 && (port == 80 || port == 443))
        return accumulator + passed;
    if (protocol == 17 && port >= 33434 && port <= 33534)
        return accumulator + passed;
    if (from >> 20 == 0xac1 && port < 1024)
        return accumulator + denied;
    if (from >> 24 == 10 && to >> 24 == 10)
        return accumulator + passed;
    return accumulator + (port >= 49152 ? passed : denied);
}
