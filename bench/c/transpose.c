#include "record.h"

/* Eight bytes as a square of bits that is turned about its diagonal, for three numbers:
 * exchanges of blocks by shifts and masks. */
u64 program(const struct record *record, u64 length, u64 accumulator)
{
#pragma clang loop unroll(full)
    for (int i = 0; i < 3; i++) {
        u64 square = record->numbers[i];
        u64 moved = (square ^ square >> 7) & 0x00aa00aa00aa00aa;
        square ^= moved ^ moved << 7;
        moved = (square ^ square >> 14) & 0x0000cccc0000cccc;
        square ^= moved ^ moved << 14;
        moved = (square ^ square >> 28) & 0x00000000f0f0f0f0;
        accumulator += square ^ moved ^ moved << 28;
    }
    return accumulator;
}
