#include "record.h"

/* Which method of HTTP a text begins with, letter by letter:
 * a branch for each letter, and a count for each method. Over text. */
u64 program(const struct record *record, u64 length, u64 accumulator)
{
    const u8 *text = record->bytes;
    if (text[0] == 'G' && text[1] == 'E' && text[2] == 'T' && text[3] == ' ')
        return accumulator + 1;
    if (text[0] == 'P') {
        if (text[1] == 'O' && text[2] == 'S' && text[3] == 'T' && text[4] == ' ')
            return accumulator + (1 << 12);
        if (text[1] == 'U' && text[2] == 'T' && text[3] == ' ')
            return accumulator + (1 << 24);
    }
    if (text[0] == 'H' && text[1] == 'E' && text[2] == 'A' && text[3] == 'D')
        return accumulator + (1ull << 36);
    return accumulator + (1ull << 48);
}
