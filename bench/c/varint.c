#include "record.h"

/* The sum of two numbers of up to five bytes, seven bits in each:
 * the highest bit says that another byte follows. */
u64 program(const struct record *record, u64 length, u64 accumulator)
{
    const u8 *bytes = record->bytes;
#pragma clang loop unroll(full)
    for (int part = 0; part < 2; part++) {
        u32 number = 0;
        int more = 1;
#pragma clang loop unroll(full)
        for (int i = 0; i < 5; i++)
            if (more) {
                number |= (u32)(bytes[part * 8 + i] & 0x7f) << 7 * i;
                more = bytes[part * 8 + i] & 0x80;
            }
        accumulator += number;
    }
    return accumulator;
}
