#include "record.h"

/* How many changes turn four bytes into four others, by dynamic programming:
 * a table of 4 by 4 whose cells are registers. Over text. */
u64 program(const struct record *record, u64 length, u64 accumulator)
{
    u32 row[5] = {0, 1, 2, 3, 4};
#pragma clang loop unroll(full)
    for (u32 i = 0; i < 4; i++) {
        u32 corner = i;
        row[0] = i + 1;
#pragma clang loop unroll(full)
        for (u32 j = 0; j < 4; j++) {
            u32 best = corner + (record->bytes[i + 8] != record->bytes[j + 24]);
            if (row[j] + 1 < best)
                best = row[j] + 1;
            if (row[j + 1] + 1 < best)
                best = row[j + 1] + 1;
            corner = row[j + 1];
            row[j + 1] = best;
        }
    }
    return accumulator + row[4];
}
