#include "record.h"

/* A histogram of six delays, eight bits for each bucket of the accumulator:
 * the bucket of each is found by comparisons with rising bounds. Over small. */
u64 program(const struct record *record, u64 length, u64 accumulator)
{
#pragma clang loop unroll(full)
    for (int i = 0; i < 6; i++) {
        u64 delay = record->numbers[i];
        int bucket = delay < 10 ? 0 : delay < 100 ? 1 : delay < 1000 ? 2 : delay < 20000 ? 3 : delay < 500000 ? 4
                   : delay < 10000000 ? 5 : delay < 5000000000 ? 6 : 7;
        accumulator += 1ull << bucket * 8;
    }
    return accumulator;
}
