#include "record.h"

/* The checksum of the Internet protocols (RFC 1071) over the bytes of each value, before it is inverted: the sum of
 * numbers of 16 bits, a last byte alone as if a zero came after it, each carry added to the lowest bit again.
 *
 * The loop has a fixed number of rounds, so it can be unrolled, and each round asks the length. */
u64 program(const struct record *record, u64 length, u64 accumulator)
{
    u64 sum = accumulator;
#pragma clang loop unroll(full)
    for (u64 i = 0; i < sizeof record->bytes; i++)
        if (RECORD_HEAD + i < length)
            sum += (u64)record->bytes[i] << i % 2 * 8;
#pragma clang loop unroll(full)
    for (int i = 0; i < 4; i++)
        sum = (sum & 0xffff) + (sum >> 16);
    return sum;
}
