#include "record.h"

/* The first sixteen points of a line after Bresenham, with the error carried along:
 * which steps go up as well is kept as a pattern of bits. */
u64 program(const struct record *record, u64 length, u64 accumulator)
{
    s32 width = (s32)record->bytes[2] - (s32)record->bytes[0];
    s32 height = (s32)record->bytes[3] - (s32)record->bytes[1];
    if (width < 0)
        width = -width;
    if (height < 0)
        height = -height;
    u32 steep = height > width;
    if (steep) {
        s32 other = width;
        width = height;
        height = other;
    }
    s32 error = width >> 1;
    u32 pattern = 0;
#pragma clang loop unroll(full)
    for (int i = 0; i < 16; i++) {
        error -= height;
        if (error < 0) {
            error += width;
            pattern |= 1u << i;
        }
    }
    return accumulator + (pattern | steep << 16);
}
