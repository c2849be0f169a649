#include "record.h"

/* The cube root of a number of 48 bits, one bit of the root a step:
 * three more bits come in, and what the next bit would cost is tried. Over small. */
u64 program(const struct record *record, u64 length, u64 accumulator)
{
    u64 value = record->numbers[0] & 0xffffffffffff;
    u64 root = 0;
#pragma clang loop unroll(full)
    for (int shift = 45; shift >= 0; shift -= 3) {
        root *= 2;
        u64 cost = 3 * root * (root + 1) + 1;
        if (value >> shift >= cost) {
            value -= cost << shift;
            root++;
        }
    }
    return accumulator + root;
}
