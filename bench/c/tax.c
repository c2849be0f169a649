#include "record.h"

/* The income tax of four incomes in five brackets, with an allowance that fades out:
 * each bracket taxes what lies above its foot at the added rate. Over small. */
u64 program(const struct record *record, u64 length, u64 accumulator)
{
#pragma clang loop unroll(full)
    for (int i = 0; i < 4; i++) {
        u64 income = record->numbers[i] & 0xffffffff;
        u64 allowance = 12570;
        if (income > 100000) {
            u64 fade = (income - 100000) >> 1;
            allowance = fade < allowance ? allowance - fade : 0;
        }
        u64 taxable = income > allowance ? income - allowance : 0;
        u64 percents = taxable * 10;
        if (taxable > 11000)
            percents += (taxable - 11000) * 2;
        if (taxable > 44725)
            percents += (taxable - 44725) * 10;
        if (taxable > 95375)
            percents += (taxable - 95375) * 2;
        if (taxable > 182100)
            percents += (taxable - 182100) * 8;
        accumulator += percents / 100;
    }
    return accumulator;
}
