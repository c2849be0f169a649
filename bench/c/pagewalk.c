#include "record.h"

/* A walk over four page-table entries for an address, with large pages and the rights:
 * each level takes nine bits, and a flag tells that the walk has ended. */
u64 program(const struct record *record, u64 length, u64 accumulator)
{
    const u64 frame = 0x000ffffffffff000ull;
    u64 address = record->numbers[0];
    u64 physical = 0, rights = 7, noexec = 0, trail = 0;
    u32 ended = 0;
#pragma clang loop unroll(full)
    for (int level = 0; level < 4; level++) {
        u64 entry = record->numbers[1 + level];
        int shift = 39 - 9 * level;
        if (!ended) {
            rights &= entry;
            noexec |= entry >> 63;
            trail ^= (entry & frame) + (address >> shift & 511) * 8;
            if (!(entry & 1)) {
                ended = 1;
            } else if (level == 3 || (level > 0 && (entry & 0x80))) {
                u64 offset = (1ull << shift) - 1;
                physical = (entry & frame & ~offset) | (address & offset);
                ended = 1;
            }
        }
    }
    if (!(rights & 1))
        return accumulator + (trail >> 12);
    return accumulator + (physical >> 12) + (rights << 60) + (noexec << 63);
}
