#include "record.h"

/* The labels of a name of DNS: their number and their bytes, eight at most:
 * each has its length in front, so the next place is read at a distance that is reckoned. Over chains. */
u64 program(const struct record *record, u64 length, u64 accumulator)
{
    u64 at = 0, labels = 0, bytes = 0;
#pragma clang loop unroll(full)
    for (int i = 0; i < 8; i++)
        if (at < 48) {
            u64 size = record->bytes[at];
            at += size + 1;
            if (size == 0)
                at = 48;
            labels += size != 0;
            bytes += size;
        }
    return accumulator + (labels << 32) + bytes;
}
