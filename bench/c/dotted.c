#include "record.h"

/* An IPv4 address in text, of 15 bytes at most, up to a byte that is no digit or dot:
 * each dot shifts the octet before it into the address. Over digits. */
u64 program(const struct record *record, u64 length, u64 accumulator)
{
    u32 address = 0, octet = 0, digits = 0, dots = 0, bad = 0, over = 0;
#pragma clang loop unroll(full)
    for (int i = 0; i < 15; i++) {
        u32 byte = record->bytes[i];
        if (!over) {
            if (byte - '0' < 10) {
                octet = octet * 10 + byte - '0';
                digits++;
            } else if (byte == '.') {
                if (digits == 0 || octet > 255)
                    bad = 1;
                address = address << 8 | (octet & 255);
                octet = 0;
                digits = 0;
                dots++;
            } else {
                over = 1;
            }
        }
    }
    address = address << 8 | (octet & 255);
    if (bad || dots != 3 || digits == 0 || octet > 255)
        return accumulator + dots;
    return accumulator ^ address;
}
