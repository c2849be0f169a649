#include "record.h"

/* Offset and delay of a clock by the four timestamps of NTP, smoothed and in microseconds:
 * seconds in fixed point with 32 bits of fraction, whose differences have a sign. */
u64 program(const struct record *record, u64 length, u64 accumulator)
{
    u64 origin = __builtin_bswap64(record->numbers[1]);
    u64 receive = __builtin_bswap64(record->numbers[2]);
    u64 transmit = __builtin_bswap64(record->numbers[3]);
    u64 arrival = __builtin_bswap64(record->numbers[4]);
    u32 stratum = record->bytes[1] & 15;
    if (stratum == 0)
        return accumulator;
    s64 there = receive - origin;
    s64 back = transmit - arrival;
    s64 offset = (there >> 1) + (back >> 1);
    s64 delay = there - back;
    if (delay < 0)
        delay = 0;
    u32 seconds = delay >> 32;
    u64 micros = (u64)seconds * 1000000 + ((delay & 0xffffffff) * 1000000 >> 32);
    s64 error = offset - (s64)accumulator;
    s64 step = error >> (seconds < 16 ? 3 : 5);
    if (step > 128ll << 32)
        step = 128ll << 32;
    if (step < -(128ll << 32))
        step = -(128ll << 32);
    return accumulator + step + micros;
}
