#include "record.h"

/* The best bid and the best ask of eight orders, and the spread between them:
 * the lowest bit is the side, eight bits the quantity, the rest the price. */
u64 program(const struct record *record, u64 length, u64 accumulator)
{
    u32 bid = 0, ask = 0xffffff, demand = 0, supply = 0;
#pragma clang loop unroll(full)
    for (int i = 0; i < 8; i++) {
        u32 order = record->words[i];
        u32 price = order >> 9, quantity = order >> 1 & 0xff;
        if (order & 1) {
            if (price < ask) {
                ask = price;
                supply = 0;
            }
            if (price == ask)
                supply += quantity;
        } else {
            if (price > bid) {
                bid = price;
                demand = 0;
            }
            if (price == bid)
                demand += quantity;
        }
    }
    if (bid >= ask)
        return accumulator + (demand < supply ? demand : supply);
    return accumulator + ((u64)(ask - bid) << 32);
}
