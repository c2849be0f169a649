#include "record.h"

/* The orders of a buddy allocator for five sizes, and the pages that are lost:
 * pages are rounded up to a power of two by halving what is left. Over small. */
u64 program(const struct record *record, u64 length, u64 accumulator)
{
    u64 orders = 0, lost = 0, refused = 0;
#pragma clang loop unroll(full)
    for (int i = 0; i < 5; i++) {
        u64 pages = (record->numbers[i] >> 12) + ((record->numbers[i] & 4095) != 0);
        if (pages == 0 || pages > 1024) {
            refused++;
        } else {
            u32 rest = pages - 1, order = 0;
            if (rest >= 256) {
                rest >>= 8;
                order = 8;
            }
            if (rest >= 16) {
                rest >>= 4;
                order += 4;
            }
            if (rest >= 4) {
                rest >>= 2;
                order += 2;
            }
            order += rest >= 2 ? 2 : rest;
            orders += order;
            lost += (1ull << order) - pages;
        }
    }
    return accumulator + orders + (lost << 16) + (refused << 40);
}
