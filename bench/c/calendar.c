#include "record.h"

/* Year, month and day of a number of days from the first of March of year 0:
 * divisions by the lengths of four hundred years, four years and five months. */
u64 program(const struct record *record, u64 length, u64 accumulator)
{
    u32 days = record->words[0] % 1000000;
    u32 era = days / 146097, of_era = days % 146097;
    u32 year = (of_era - of_era / 1460 + of_era / 36524 - of_era / 146096) / 365;
    u32 of_year = of_era - (365 * year + year / 4 - year / 100);
    u32 month = (5 * of_year + 2) / 153;
    u32 day = of_year - (153 * month + 2) / 5 + 1;
    month = month < 10 ? month + 3 : month - 9;
    year += era * 400 + (month <= 2);
    return accumulator * 31 + (year << 9 | month << 5 | day);
}
