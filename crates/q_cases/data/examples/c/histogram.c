#include "record.h"

/* A histogram in the frame: eight counts, one for each remainder of a number by 8. The answer is the greatest count. */
u64 program(const struct record *record, u64 length, u64 accumulator)
{
    u64 *counts = kept_frame();
    u64 *count = &counts[record->numbers[0] & 7];
    *count += 1;
    return *count > accumulator ? *count : accumulator;
}
