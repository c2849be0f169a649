#include "record.h"

/* A balance in cents over six periods, with a rate of the record for each:
 * products of 64 bits, and quotients by ten thousand. */
u64 program(const struct record *record, u64 length, u64 accumulator)
{
    u64 balance = (accumulator & 0xffffffff) + 100000;
#pragma clang loop unroll(full)
    for (int i = 0; i < 6; i++) {
        u64 rate = record->halves[i] & 0x3ff;
        balance += (balance * rate + 5000) / 10000;
    }
    return balance;
}
