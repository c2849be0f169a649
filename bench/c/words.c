#include "record.h"

/* How many words 32 bytes of text have, and the length of the longest:
 * a space ends one. Over text. */
u64 program(const struct record *record, u64 length, u64 accumulator)
{
    u32 count = 0, size = 0, longest = 0;
#pragma clang loop unroll(full)
    for (int i = 0; i < 32; i++) {
        if (record->bytes[i] == ' ') {
            if (size > longest)
                longest = size;
            size = 0;
        } else {
            count += size == 0;
            size++;
        }
    }
    return accumulator + ((u64)count << 32) + (size > longest ? size : longest);
}
