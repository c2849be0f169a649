#include "record.h"

/* How long 12 bytes become by percent-encoding, for a URL:
 * letters, digits and four signs stay one byte, all else becomes three. Over text. */
u64 program(const struct record *record, u64 length, u64 accumulator)
{
    u32 size = 0;
#pragma clang loop unroll(full)
    for (int i = 0; i < 12; i++) {
        u32 byte = record->bytes[i];
        u32 letter = (byte | 32) - 'a' < 26;
        u32 digit = byte - '0' < 10;
        u32 sign = byte == '-' || byte == '.' || byte == '_' || byte == '~';
        size += letter || digit || sign ? 1 : 3;
    }
    return accumulator + size;
}
