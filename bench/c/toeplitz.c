#include "record.h"

/* The hash by Toeplitz of both ports, by which a network card picks one of eight queues:
 * for each bit that is set, 32 bits of the key are taken, one bit further on. Over packets. */
u64 program(const struct record *record, u64 length, u64 accumulator)
{
    u32 ports = __builtin_bswap32(record->words[5]);
    u64 key = 0x6d5a56da255b0ec2;
    u32 hash = 0;
#pragma clang loop unroll(full)
    for (int i = 0; i < 32; i++) {
        if (ports & 0x80000000)
            hash ^= key >> 32;
        ports <<= 1;
        key <<= 1;
    }
    return accumulator + (1ull << (hash & 7) * 8);
}
