#include "record.h"

static inline u32 spread(u32 half)
{
    half = (half | half << 8) & 0x00ff00ff;
    half = (half | half << 4) & 0x0f0f0f0f;
    half = (half | half << 2) & 0x33333333;
    return (half | half << 1) & 0x55555555;
}

/* Two halves interleaved to a word, for four pairs:
 * each is spread by shifts and masks. */
u64 program(const struct record *record, u64 length, u64 accumulator)
{
#pragma clang loop unroll(full)
    for (int i = 0; i < 4; i++) {
        u32 east = spread(record->halves[i * 2]), north = spread(record->halves[i * 2 + 1]);
        accumulator = accumulator * 3 + (east | north << 1);
    }
    return accumulator;
}
