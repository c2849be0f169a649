#include "record.h"

/* The whole square roots of two words, bit by bit:
 * sixteen comparisons with a difference each. */
u64 program(const struct record *record, u64 length, u64 accumulator)
{
#pragma clang loop unroll(full)
    for (int part = 0; part < 2; part++) {
        u32 rest = record->words[part], root = 0;
#pragma clang loop unroll(full)
        for (int place = 30; place >= 0; place -= 2) {
            u32 bit = 1u << place;
            if (rest >= root + bit) {
                rest -= root + bit;
                root = (root >> 1) + bit;
            } else
                root >>= 1;
        }
        accumulator += root;
    }
    return accumulator;
}
