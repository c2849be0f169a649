#include "record.h"

/* Eight switches debounced over twelve samples, with a vertical counter of two bits for each:
 * a switch flips when four samples in a row differ from its state. */
u64 program(const struct record *record, u64 length, u64 accumulator)
{
    u32 state = accumulator & 0xff, low = 0xff, high = 0xff;
#pragma clang loop unroll(full)
    for (int i = 0; i < 12; i++) {
        u32 changed = record->bytes[i] ^ state;
        low = ~(low & changed);
        high = low ^ (high & changed);
        state ^= changed & low & high;
    }
    u32 flipped = (state ^ (u32)accumulator) & 0xff;
    return (accumulator & ~0xffull) + (flipped << 8) + (state & 0xff);
}
