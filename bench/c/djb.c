#include "record.h"

/* Bernstein's hash of 32 bits over 20 bytes:
 * a shift, an addition and an exclusive or for each, all in 32 bits. */
u64 program(const struct record *record, u64 length, u64 accumulator)
{
    u32 hash = (u32)accumulator + 5381;
#pragma clang loop unroll(full)
    for (int i = 0; i < 20; i++)
        hash = ((hash << 5) + hash) ^ record->bytes[i];
    return hash;
}
