#include "record.h"

/* The checksum of the Internet protocols over 24 halves:
 * their sum with each carry added to the lowest bit again. */
u64 program(const struct record *record, u64 length, u64 accumulator)
{
    u32 sum = accumulator & 0xffff;
#pragma clang loop unroll(full)
    for (int i = 0; i < 24; i++)
        sum += record->halves[i];
    sum = (sum & 0xffff) + (sum >> 16);
    sum = (sum & 0xffff) + (sum >> 16);
    return (u16)~sum;
}
