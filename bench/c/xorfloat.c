#include "record.h"

/* How many bytes the XOR compression of floats takes for five values after a first:
 * half a byte tells the zero bytes in front, and the others are kept. Over small. */
u64 program(const struct record *record, u64 length, u64 accumulator)
{
    u32 bytes = 8 + 3;
#pragma clang loop unroll(full)
    for (int i = 0; i < 5; i++) {
        u64 change = record->numbers[i + 1] ^ record->numbers[i];
        u32 kept = change != 0;
        if (change >> 32) {
            change >>= 32;
            kept += 4;
        }
        if (change >> 16) {
            change >>= 16;
            kept += 2;
        }
        if (change >> 8)
            kept++;
        if (kept == 4)
            kept = 5;
        bytes += kept;
    }
    return accumulator + bytes;
}
