#include "record.h"

/* The sequence number that answers a SYN without state, or that an acknowledgement must have:
 * both ends are mixed with a secret by rounds of add, rotate and xor. Over packets. */
u64 program(const struct record *record, u64 length, u64 accumulator)
{
    if (record->bytes[9] != 6)
        return accumulator;
    u32 minute = record->sequence >> 6 & 31;
    u32 size = record->bytes[40] == 2 ? __builtin_bswap16(record->halves[21]) : 536;
    u32 class = size >= 1460 ? 3 : size >= 1440 ? 2 : size >= 1300 ? 1 : 0;

    u32 a = record->words[3] ^ 0x243f6a88;
    u32 b = record->words[4] ^ 0x85a308d3;
    u32 c = record->words[5] ^ 0x13198a2e;
    u32 d = minute ^ 0x03707344;
#pragma clang loop unroll(full)
    for (int i = 0; i < 4; i++) {
        a += b;
        b = (b << 5 | b >> 27) ^ a;
        a = a << 16 | a >> 16;
        c += d;
        d = (d << 8 | d >> 24) ^ c;
        a += d;
        d = (d << 7 | d >> 25) ^ a;
        c += b;
        b = (b << 13 | b >> 19) ^ c;
        c = c << 16 | c >> 16;
    }
    u32 cookie = (a ^ b ^ c ^ d) & 0xffffff;
    cookie += __builtin_bswap32(record->words[6]);
    cookie ^= minute << 27 | class << 24;
    if (record->bytes[33] & 0x10)
        return accumulator + (__builtin_bswap32(record->words[7]) - 1 == cookie ? 1ull << 40 : 0);
    return accumulator + cookie;
}
