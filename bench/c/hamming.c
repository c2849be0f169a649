#include "record.h"

/* How many bytes; refused/hamming.c has more. */
#ifndef CODES
#define CODES 3
#endif

/* Three bytes of a code of Hamming, with four bits of data each, put right and joined:
 * a syndrome of three parities says which bit to turn. */
u64 program(const struct record *record, u64 length, u64 accumulator)
{
#pragma clang loop unroll(full)
    for (int i = 0; i < CODES; i++) {
        u32 code = record->bytes[i];
        u32 syndrome = (code ^ code >> 2 ^ code >> 4 ^ code >> 6) & 1;
        syndrome |= (code >> 1 ^ code >> 2 ^ code >> 5 ^ code >> 6) << 1 & 2;
        syndrome |= (code >> 3 ^ code >> 4 ^ code >> 5 ^ code >> 6) << 2 & 4;
        if (syndrome)
            code ^= 1 << (syndrome - 1);
        accumulator = accumulator << 4 ^ (code >> 2 & 1) ^ (code >> 3 & 14);
    }
    return accumulator;
}
