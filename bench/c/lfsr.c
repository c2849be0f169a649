#include "record.h"

/* Thirty-two steps of a shift register with feedback, of 16 bits:
 * the feedback is a mask of the bit that is shifted out. */
u64 program(const struct record *record, u64 length, u64 accumulator)
{
    u32 state = (u16)accumulator ^ record->halves[0];
#pragma clang loop unroll(full)
    for (int i = 0; i < 32; i++)
        state = state >> 1 ^ (-(state & 1) & 0xb400);
    return accumulator + state;
}
