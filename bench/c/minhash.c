#include "record.h"

/* The least of three hashes over six words each, mixed into the accumulator:
 * products of 32 bits and comparisons. */
u64 program(const struct record *record, u64 length, u64 accumulator)
{
    u32 a = 0xffffffff, b = 0xffffffff, c = 0xffffffff;
#pragma clang loop unroll(full)
    for (int i = 0; i < 6; i++) {
        u32 word = record->words[i];
        u32 first = word * 0x9e3779b1, second = (word ^ 0x5bd1e995) * 0x85ebca6b;
        u32 third = (word + 0x2545f491) * 0xc2b2ae35;
        a = first < a ? first : a;
        b = second < b ? second : b;
        c = third < c ? third : c;
    }
    return accumulator * 31 + (a ^ b ^ c);
}
