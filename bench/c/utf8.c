#include "record.h"

/* Whether 16 bytes are UTF-8 by their form, and how many characters begin in them:
 * how many bytes must follow is carried along. Over text. */
u64 program(const struct record *record, u64 length, u64 accumulator)
{
    u32 follow = 0, begun = 0, bad = 0;
#pragma clang loop unroll(full)
    for (int i = 0; i < 16; i++) {
        u32 byte = record->bytes[i];
        if (byte < 0x80) {
            bad |= follow;
            follow = 0;
            begun++;
        } else if (byte < 0xc0) {
            if (follow == 0)
                bad = 1;
            else
                follow--;
        } else {
            bad |= follow;
            follow = byte < 0xe0 ? 1 : byte < 0xf0 ? 2 : 3;
            begun++;
        }
    }
    return accumulator + begun + (bad ? 1ull << 32 : 0);
}
