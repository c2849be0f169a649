#include "record.h"

/* A score of how much like a port scan the segments look, which fades by an eighth:
 * odd sets of flags, low ports and empty segments give points. Over packets. */
u64 program(const struct record *record, u64 length, u64 accumulator)
{
    u64 score = accumulator & 0xffffffff, alarms = accumulator >> 32;
    u32 points = 0;
    score -= score >> 3;
    if (record->bytes[0] == 0x45 && record->bytes[9] == 6) {
        u32 flags = record->bytes[33] & 0x3f;
        u32 port = __builtin_bswap16(record->halves[11]);
        u32 size = __builtin_bswap16(record->halves[1]);
        u32 heads = 20 + (record->bytes[32] >> 4) * 4;
        if (flags == 0)
            points += 60;
        else if (flags == 0x29)
            points += 80;
        else if ((flags & 3) == 3)
            points += 70;
        else if (flags == 1)
            points += 50;
        else if (flags == 2)
            points += 20;
        if (port < 1024)
            points *= 3;
        else if (port < 49152)
            points *= 2;
        if (size > heads)
            points >>= 1;
        if (__builtin_bswap16(record->halves[17]) <= 1024)
            points += 10;
    } else if (record->bytes[9] == 17 && __builtin_bswap16(record->halves[12]) == 8) {
        points = 40;
    }
    score += points;
    if (score > 400) {
        alarms++;
        score = 0;
    }
    return alarms << 32 | score;
}
