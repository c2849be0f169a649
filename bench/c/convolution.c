#include "record.h"

/* The edges in a strip of grey pixels, three rows of eight, by the masks of Sobel:
 * six windows of 3 by 3 are weighed across and down, and strong ones counted. */
u64 program(const struct record *record, u64 length, u64 accumulator)
{
    u32 edges = 0;
#pragma clang loop unroll(full)
    for (int i = 0; i < 6; i++) {
        const u8 *top = record->bytes + i, *middle = top + 8, *bottom = top + 16;
        s32 across = top[2] + 2 * middle[2] + bottom[2] - top[0] - 2 * middle[0] - bottom[0];
        s32 down = bottom[0] + 2 * bottom[1] + bottom[2] - top[0] - 2 * top[1] - top[2];
        if (across < 0)
            across = -across;
        if (down < 0)
            down = -down;
        if (across + down > 384)
            edges++;
    }
    return accumulator + edges;
}
