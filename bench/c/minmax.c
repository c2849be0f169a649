#include "record.h"

/* The least and the greatest of twelve words, as a spread:
 * two comparisons for each. */
u64 program(const struct record *record, u64 length, u64 accumulator)
{
    u32 least = record->words[0], greatest = record->words[0];
#pragma clang loop unroll(full)
    for (int i = 1; i < 12; i++) {
        u32 word = record->words[i];
        if (word < least)
            least = word;
        if (word > greatest)
            greatest = word;
    }
    return accumulator + (greatest - least);
}
