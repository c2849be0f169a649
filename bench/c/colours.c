#include "record.h"

static inline s32 clamped(s32 number)
{
    return number < 0 ? 0 : number > 255 ? 255 : number;
}

/* Three pixels of red, green and blue as brightness and two differences, clamped to bytes:
 * signed products and shifts of 32 bits. */
u64 program(const struct record *record, u64 length, u64 accumulator)
{
#pragma clang loop unroll(full)
    for (int i = 0; i < 3; i++) {
        s32 red = record->bytes[i * 3], green = record->bytes[i * 3 + 1], blue = record->bytes[i * 3 + 2];
        s32 bright = (77 * red + 150 * green + 29 * blue) >> 8;
        s32 blueness = clamped(((blue - bright) * 144 >> 8) + 128);
        s32 redness = clamped(((red - bright) * 183 >> 8) + 128);
        accumulator += (u32)(bright << 16 | blueness << 8 | redness);
    }
    return accumulator;
}
