#include "record.h"

/* The median of five numbers, by a network of comparisons:
 * each exchange is a minimum and a maximum. */
u64 program(const struct record *record, u64 length, u64 accumulator)
{
    u64 a = record->numbers[0], b = record->numbers[1], c = record->numbers[2];
    u64 d = record->numbers[3], e = record->numbers[4];
    u64 ab = a < b ? a : b, ba = a < b ? b : a, cd = c < d ? c : d, dc = c < d ? d : c;
    u64 low = ab < cd ? cd : ab, high = ba < dc ? ba : dc;
    u64 f = e < low ? low : e;
    u64 g = low < high ? low : high, h = low < high ? high : low;
    u64 middle = f < g ? g : f > h ? h : f;
    return accumulator ^ middle;
}
