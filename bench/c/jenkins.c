#include "record.h"

/* Jenkins' hash of one byte at a time over 16 bytes, of 32 bits:
 * shifts, additions and exclusive ors, each on the one before. */
u64 program(const struct record *record, u64 length, u64 accumulator)
{
    u32 hash = (u32)accumulator;
#pragma clang loop unroll(full)
    for (int i = 0; i < 16; i++) {
        hash += record->bytes[i];
        hash += hash << 10;
        hash ^= hash >> 6;
    }
    hash += hash << 3;
    hash ^= hash >> 11;
    return hash + (hash << 15);
}
