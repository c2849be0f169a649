#include "record.h"

/* The sine of a binary angle of 16 bits, by twelve rotations of CORDIC:
 * the angle is brought into its quadrant, and each step turns by an arctangent. */
u64 program(const struct record *record, u64 length, u64 accumulator)
{
    const s32 arctangents[12] = {8192, 4836, 2555, 1297, 651, 326, 163, 81, 41, 20, 10, 5};
    u32 quadrant = record->halves[0] >> 14;
    s32 rest = record->halves[0] & 0x3fff;
    s32 x = 19898, y = 0;
#pragma clang loop unroll(full)
    for (int i = 0; i < 12; i++) {
        s32 sign = rest >> 31;
        s32 across = ((y >> i) ^ sign) - sign;
        s32 up = ((x >> i) ^ sign) - sign;
        x -= across;
        y += up;
        rest -= (arctangents[i] ^ sign) - sign;
    }
    s32 sine = quadrant & 1 ? x : y;
    if (quadrant & 2)
        sine = -sine;
    return accumulator + (s64)sine;
}
