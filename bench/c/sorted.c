#include "record.h"

static inline void exchange(u32 *low, u32 *high)
{
    u32 one = *low, other = *high;
    *low = one < other ? one : other;
    *high = one < other ? other : one;
}

/* Six words sorted by a network of twelve exchanges, and a weighted sum of them:
 * branches that no predictor learns. */
u64 program(const struct record *record, u64 length, u64 accumulator)
{
    u32 a = record->words[0], b = record->words[1], c = record->words[2];
    u32 d = record->words[3], e = record->words[4], f = record->words[5];
    exchange(&b, &c), exchange(&e, &f);
    exchange(&a, &c), exchange(&d, &f);
    exchange(&a, &b), exchange(&d, &e);
    exchange(&c, &f), exchange(&a, &d);
    exchange(&b, &e), exchange(&c, &e);
    exchange(&b, &d), exchange(&c, &d);
    return accumulator + a + 2ull * b + 3ull * c + 4ull * d + 5ull * e + 6ull * f;
}
