#include "record.h"

/* A bucket of tokens in the accumulator, filled by the time since the last packet:
 * each packet of the record takes its length, or is dropped and counted. */
u64 program(const struct record *record, u64 length, u64 accumulator)
{
    u32 level = accumulator & 0xffffff, dropped = accumulator >> 24 & 0xffffff;
#pragma clang loop unroll(full)
    for (int i = 0; i < 6; i++) {
        u32 elapsed = record->halves[i * 4] & 0x3ff, size = record->halves[i * 4 + 1] & 0x7ff;
        level += elapsed * 2;
        if (level > 100000)
            level = 100000;
        if (size <= level)
            level -= size;
        else
            dropped++;
    }
    return (u64)(dropped & 0xffffff) << 24 | level;
}
