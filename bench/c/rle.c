#include "record.h"

/* The byte at a place of what twelve pairs of a run's length and its byte expand to:
 * the runs before the place are taken off it. Over chains. */
u64 program(const struct record *record, u64 length, u64 accumulator)
{
    u32 place = accumulator & 63, found = 0, value = 0;
#pragma clang loop unroll(full)
    for (int i = 0; i < 12; i++) {
        u32 run = record->bytes[2 * i];
        if (!found) {
            if (place < run) {
                value = record->bytes[2 * i + 1];
                found = 1;
            } else {
                place -= run;
            }
        }
    }
    return accumulator + (found ? value + 1 : 0);
}
