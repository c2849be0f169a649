#include "record.h"

/* The Roman numerals among 12 bytes as one number, read from the end:
 * a numeral less than the one behind it is taken off. Over text. */
u64 program(const struct record *record, u64 length, u64 accumulator)
{
    u32 total = 0, behind = 0;
#pragma clang loop unroll(full)
    for (int i = 11; i >= 0; i--) {
        u32 value = 0;
        switch (record->bytes[i] | 32) {
        case 'i': value = 1; break;
        case 'v': value = 5; break;
        case 'x': value = 10; break;
        case 'l': value = 50; break;
        case 'c': value = 100; break;
        case 'd': value = 500; break;
        case 'm': value = 1000; break;
        }
        if (value != 0) {
            total += value < behind ? -value : value;
            behind = value;
        }
    }
    return accumulator + total;
}
