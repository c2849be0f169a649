#include "record.h"

/* Four pixels of 32 bits laid over four others by their alpha, and the result summed:
 * red and blue go together in one word, and 255 is divided by with shifts. */
u64 program(const struct record *record, u64 length, u64 accumulator)
{
#pragma clang loop unroll(full)
    for (int i = 0; i < 4; i++) {
        u32 over = record->words[i], under = record->words[i + 4];
        u32 alpha = over >> 24, rest = 255 - alpha;
        u32 outer = (over & 0xff00ff) * alpha + (under & 0xff00ff) * rest + 0x800080;
        outer = (outer + (outer >> 8 & 0xff00ff)) >> 8 & 0xff00ff;
        u32 green = (over >> 8 & 0xff) * alpha + (under >> 8 & 0xff) * rest + 128;
        green = (green + (green >> 8)) >> 8;
        accumulator += outer | green << 8;
    }
    return accumulator;
}
