#include "record.h"

/* A state machine over ten events, by a switch of the state:
 * what is left at the end is one of five states, counted in the accumulator. */
u64 program(const struct record *record, u64 length, u64 accumulator)
{
    u32 state = 0;
#pragma clang loop unroll(full)
    for (int i = 0; i < 10; i++) {
        u32 event = record->bytes[i] & 3;
        switch (state) {
        case 0: state = event == 1 ? 1 : event == 2 ? 2 : 0; break;
        case 1: state = event == 0 ? 3 : event == 3 ? 0 : 1; break;
        case 2: state = event < 2 ? 3 : 4; break;
        case 3: state = event == 2 ? 4 : 3; break;
        default: state = event == 3 ? 0 : 4; break;
        }
    }
    return accumulator + (1ull << state * 12);
}
