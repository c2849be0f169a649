#include "record.h"

/* Whether a segment lies in the window of its receiver, as TCP asks it, and what is new in it:
 * sequence numbers are compared by the sign of their difference. Over packets. */
u64 program(const struct record *record, u64 length, u64 accumulator)
{
    if (record->bytes[9] != 6)
        return accumulator;
    u32 next = (u32)accumulator;
    u32 accepted = accumulator >> 32;
    u32 first = __builtin_bswap32(record->words[6]);
    u32 window = __builtin_bswap16(record->halves[17]);
    s32 size = __builtin_bswap16(record->halves[1]) - 20 - (record->bytes[32] >> 4) * 4;
    if (size < 0)
        size = 0;
    size += (record->bytes[33] & 1) + (record->bytes[33] >> 1 & 1);
    if (record->bytes[33] & 2)
        next = first;
    u32 last = first + size;
    u32 edge = next + window;
    if (size == 0 && window == 0) {
        if (first == next)
            accepted++;
    } else if ((s32)(last - next) >= 0 && (s32)(first - edge) < 0) {
        accepted++;
        if ((s32)(last - edge) > 0)
            last = edge;
        if ((s32)(first - next) <= 0 && (s32)(last - next) > 0)
            next = last;
    }
    return (u64)accepted << 32 | next;
}
