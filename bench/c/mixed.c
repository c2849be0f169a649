#include "record.h"

/* A score of an event by its age, size and kind, with early ends:
 * small tests of several widths, as filters have them. Over small. */
u64 program(const struct record *record, u64 length, u64 accumulator)
{
    if (record->sequence < 3 || (record->node & 7) == 5)
        return accumulator;
    u64 age = record->numbers[0], size = record->numbers[1];
    if (age > 1000000 && size < 4096)
        return accumulator + 1;
    u32 kind = record->bytes[16], level = record->words[6];
    u64 score = size > 65536 ? 16 : size >> 12;
    if (kind & 1)
        score *= 3;
    if (level > 100 && level < 100000)
        score += level / 100;
    s32 balance = (s32)record->words[8];
    if (balance < 0)
        score >>= 1;
    return accumulator + score;
}
