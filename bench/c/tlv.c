#include "record.h"

/* What places are; refused/tlv32.c has 32 bits. */
#ifndef PLACE
#define PLACE u64
#endif

/* Fields with a kind and a length in front, six at most, of which two kinds count:
 * a walk over places that are reckoned, with a test before each access. Over chains. */
u64 program(const struct record *record, u64 length, u64 accumulator)
{
    PLACE at = 0;
#pragma clang loop unroll(full)
    for (int i = 0; i < 6; i++)
        if (at <= 44) {
            PLACE kind = record->bytes[at] & 3, size = record->bytes[at + 1] & 15;
            if (kind == 1)
                accumulator += size;
            if (kind == 2)
                accumulator += (u64)record->bytes[at + 2] << 32;
            at = kind == 0 ? 48 : at + size + 2;
        }
    return accumulator;
}
