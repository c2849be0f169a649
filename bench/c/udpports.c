#include "record.h"

/* Which service a UDP packet is for, by the ports behind a head of IPv4:
 * a chain of equalities over both ports. Over packets. */
u64 program(const struct record *record, u64 length, u64 accumulator)
{
    const u8 *udp = record->bytes + 20;
    if (record->bytes[9] != 17)
        return accumulator;
    u32 from = (u32)udp[0] << 8 | udp[1], to = (u32)udp[2] << 8 | udp[3];
    u32 length_field = (u32)udp[4] << 8 | udp[5];
    if (length_field < 8)
        return accumulator + (1ull << 56);
    u32 port = from < to ? from : to;
    if (port == 53)
        return accumulator + 1;
    if (port == 123)
        return accumulator + (1 << 8);
    if (port == 67 || port == 68)
        return accumulator + (1 << 16);
    if (port == 443)
        return accumulator + (1 << 24);
    return port < 1024 ? accumulator + (1ull << 32) : accumulator + (1ull << 40);
}
