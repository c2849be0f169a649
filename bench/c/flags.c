#include "record.h"

/* Permissions of twelve words of bits, for owner, group and others:
 * bits are tested together, and other bits are set. */
u64 program(const struct record *record, u64 length, u64 accumulator)
{
#pragma clang loop unroll(full)
    for (int i = 0; i < 12; i++) {
        u32 mode = record->words[i], granted = 0;
        if (mode & 0x400 && !(mode & 0x8000))
            granted |= 1;
        if ((mode & 0x30) == 0x30)
            granted |= 2;
        if (mode & 0x80000007)
            granted |= mode >> 3 & 12;
        accumulator += granted;
    }
    return accumulator;
}
