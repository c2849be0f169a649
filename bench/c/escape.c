#include "record.h"

/* How long 12 bytes become as a string of JSON:
 * quotes, backslashes and five controls take two, other controls six. */
u64 program(const struct record *record, u64 length, u64 accumulator)
{
    u32 size = 2;
#pragma clang loop unroll(full)
    for (int i = 0; i < 12; i++) {
        u32 byte = record->bytes[i];
        if (byte == '"' || byte == '\\')
            size += 2;
        else if (byte >= 32)
            size += 1;
        else if (byte == '\b' || byte == '\t' || byte == '\n' || byte == '\f' || byte == '\r')
            size += 2;
        else
            size += 6;
    }
    return accumulator + size;
}
