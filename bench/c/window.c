#include "record.h"

/* A count of events in windows of 4096 ticks, and the greatest count so far:
 * start, count and greatest are fields of the accumulator. */
u64 program(const struct record *record, u64 length, u64 accumulator)
{
    u32 start = accumulator & 0xffffff, count = accumulator >> 24 & 0xffff, greatest = accumulator >> 40 & 0xffff;
    u32 time = start;
#pragma clang loop unroll(full)
    for (int i = 0; i < 8; i++) {
        time = (time + (record->halves[i] & 0x7ff)) & 0xffffff;
        if (((time - start) & 0xffffff) >= 4096) {
            if (count > greatest)
                greatest = count;
            start = time;
            count = 0;
        }
        count = (count + 1) & 0xffff;
    }
    return (u64)greatest << 40 | (u64)count << 24 | start;
}
