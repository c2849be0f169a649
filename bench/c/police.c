#include "record.h"

/* A policer of two rates and three colours, with a bucket of tokens for each:
 * both are filled a record, and red packets take nothing. Over packets. */
u64 program(const struct record *record, u64 length, u64 accumulator)
{
    s32 committed = (u16)accumulator;
    s32 peak = (u16)(accumulator >> 16);
    u32 red = (u16)(accumulator >> 32);
    u32 yellow = accumulator >> 48;
    s32 size = __builtin_bswap16(record->halves[1]);

    committed += 400;
    if (committed > 12000)
        committed = 12000;
    peak += 700;
    if (peak > 20000)
        peak = 20000;

    if (record->bytes[1] >> 2 == 46)
        size -= size >> 2;
    if (peak < size) {
        red++;
    } else if (committed < size) {
        peak -= size;
        yellow++;
    } else {
        peak -= size;
        committed -= size;
    }
    return (u64)(u16)yellow << 48 | (u64)(u16)red << 32 | (u64)(u32)peak << 16 | (u32)committed;
}
