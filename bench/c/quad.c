#include "record.h"

/* An IPv4 address in decimal with dots, from at most 15 bytes of a text:
 * digits, dots and anything else are three ways for each byte. Over digits. */
u64 program(const struct record *record, u64 length, u64 accumulator)
{
    u32 address = 0, part = 0, dots = 0, bad = 0;
#pragma clang loop unroll(full)
    for (int i = 0; i < 15; i++) {
        u32 digit = (u32)record->bytes[i] - '0';
        if (digit <= 9) {
            part = part * 10 + digit;
            bad |= part > 255;
        } else if (record->bytes[i] == '.' && dots < 3) {
            address = address << 8 | (part & 255);
            part = 0;
            dots++;
        } else
            bad = 1;
    }
    return bad ? accumulator + (1ull << 40) : accumulator + (address << 8 | part);
}
