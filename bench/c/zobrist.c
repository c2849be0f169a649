#include "record.h"

/* A Zobrist hash of a board of 16 squares, whose digits are the pieces:
 * each key is made of square and piece by multiplying, and empty squares have none. Over digits. */
u64 program(const struct record *record, u64 length, u64 accumulator)
{
    u64 hash = 0;
#pragma clang loop unroll(full)
    for (u32 square = 0; square < 16; square++) {
        u32 piece = record->bytes[square] - '0';
        if (piece - 1 < 9) {
            u64 key = (square * 10 + piece) * 0x9e3779b97f4a7c15ull;
            hash ^= key ^ key >> 29;
        }
    }
    return accumulator + hash;
}
