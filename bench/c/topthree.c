#include "record.h"

/* The three greatest of twelve halves, in their order:
 * each is put in its place by comparisons. */
u64 program(const struct record *record, u64 length, u64 accumulator)
{
    u32 first = 0, second = 0, third = 0;
#pragma clang loop unroll(full)
    for (int i = 0; i < 12; i++) {
        u32 half = record->halves[i];
        if (half > first) {
            third = second;
            second = first;
            first = half;
        } else if (half > second) {
            third = second;
            second = half;
        } else if (half > third)
            third = half;
    }
    return accumulator + ((u64)first << 32 | second << 16 | third);
}
