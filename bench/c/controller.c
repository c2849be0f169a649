#include "record.h"

/* Four steps of a PID controller with gains in 1/256, from a set point and four readings:
 * the integral is held within bounds against windup, the derivative is of the readings. */
u64 program(const struct record *record, u64 length, u64 accumulator)
{
    s32 integral = 0;
#pragma clang loop unroll(full)
    for (int i = 2; i < 6; i++) {
        s32 reading = record->halves[i];
        s32 error = (s32)record->halves[0] - reading;
        integral += 24 * error;
        if (integral > 1000000)
            integral = 1000000;
        if (integral < -1000000)
            integral = -1000000;
        s32 output = (640 * error + integral - 96 * (reading - (s32)record->halves[i - 1])) >> 8;
        if (output > 0)
            accumulator += (u32)output;
    }
    return accumulator;
}
