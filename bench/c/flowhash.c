#include "record.h"

/* A hash of a connection that is the same in both directions, to pick a worker by:
 * ends are put in order, then mixed and scaled. Over packets. */
u64 program(const struct record *record, u64 length, u64 accumulator)
{
    u32 source = __builtin_bswap32(record->words[3]);
    u32 target = __builtin_bswap32(record->words[4]);
    u32 protocol = record->bytes[9];
    u32 from = 0, to = 0;
    if ((protocol == 6 || protocol == 17) && (record->bytes[0] & 15) == 5
        && !(record->halves[3] & 0xff3f)) {
        from = __builtin_bswap16(record->halves[10]);
        to = __builtin_bswap16(record->halves[11]);
    }
    if (source > target || (source == target && from > to)) {
        u32 other = source;
        source = target;
        target = other;
        other = from;
        from = to;
        to = other;
    }
    u32 hash = source + 0x9e3779b9;
    u32 second = target + 0x9e3779b9;
    u32 third = (from << 16 | to) + protocol;
    hash = (hash - second - third) ^ third >> 13;
    second = (second - third - hash) ^ hash << 8;
    third = (third - hash - second) ^ second >> 13;
    hash = (hash - second - third) ^ third >> 12;
    second = (second - third - hash) ^ hash << 16;
    third = (third - hash - second) ^ second >> 5;
    u32 worker = (u64)third * 12 >> 32;
    return accumulator * 31 + worker;
}
