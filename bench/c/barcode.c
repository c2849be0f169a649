#include "record.h"

/* The check digit of a short barcode, UPC-E, of six digits:
 * the last one says where the zeros were, and then odd places count three times. Over digits. */
u64 program(const struct record *record, u64 length, u64 accumulator)
{
    u32 first = record->bytes[0] - '0', second = record->bytes[1] - '0';
    u32 third = record->bytes[2] - '0', fourth = record->bytes[3] - '0';
    u32 fifth = record->bytes[4] - '0', last = record->bytes[5] - '0';
    u32 odd, even;
    if (first > 9 || second > 9 || third > 9 || fourth > 9 || fifth > 9 || last > 9)
        return accumulator + 1;
    if (last <= 2) {
        odd = second + third + fifth;
        even = first + last + fourth;
    } else if (last == 3) {
        odd = second + fifth;
        even = first + third + fourth;
    } else if (last == 4) {
        odd = second + fourth + fifth;
        even = first + third;
    } else {
        odd = second + fourth + last;
        even = first + third + fifth;
    }
    u32 check = (10 - (3 * odd + even) % 10) % 10;
    if (check == (u32)record->bytes[6] - '0')
        return accumulator + (1ull << 32);
    return accumulator + check;
}
