#include "record.h"

/* A number with its sign in LEB128, of eight bytes at most:
 * seven bits of each byte, and the sign from the last one's bit 6. */
u64 program(const struct record *record, u64 length, u64 accumulator)
{
    u64 value = 0;
    u32 more = 1;
#pragma clang loop unroll(full)
    for (int i = 0; i < 8; i++) {
        if (more) {
            u64 byte = record->bytes[i];
            value |= (byte & 0x7f) << (7 * i);
            if (byte < 0x80) {
                more = 0;
                if (byte & 0x40)
                    value |= -1ull << (7 * i + 7);
            }
        }
    }
    if (more)
        return accumulator + 1;
    return accumulator + value;
}
