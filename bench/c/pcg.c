#include "record.h"

/* Eight numbers of a PCG, which is a product of 64 bits and a rotation of 32:
 * the distance of the rotation is a number that is reckoned. */
u64 program(const struct record *record, u64 length, u64 accumulator)
{
    u64 state = accumulator ^ record->numbers[0];
    u32 sum = 0;
#pragma clang loop unroll(full)
    for (int i = 0; i < 8; i++) {
        u32 mixed = (u32)((state >> 18 ^ state) >> 27), places = state >> 59;
        sum += mixed >> places | mixed << (-places & 31);
        state = state * 6364136223846793005 + 1442695040888963407;
    }
    return state ^ sum;
}
