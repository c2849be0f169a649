#include "record.h"

/* Numbers of eight decimal digits, a digit in each nibble, from three words:
 * a chain of shifts and products by ten. */
u64 program(const struct record *record, u64 length, u64 accumulator)
{
#pragma clang loop unroll(full)
    for (int i = 0; i < 3; i++) {
        u32 word = record->words[i], number = 0;
#pragma clang loop unroll(full)
        for (int place = 28; place >= 0; place -= 4)
            number = number * 10 + (word >> place & 15);
        accumulator += number;
    }
    return accumulator;
}
