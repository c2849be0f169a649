#include "record.h"

/* FNV-1a of 64 bits over 24 bytes:
 * an exclusive or and a multiplication for each byte, one after the other. */
u64 program(const struct record *record, u64 length, u64 accumulator)
{
    u64 hash = accumulator ^ 0xcbf29ce484222325;
#pragma clang loop unroll(full)
    for (int i = 0; i < 24; i++)
        hash = (hash ^ record->bytes[i]) * 0x100000001b3;
    return hash;
}
