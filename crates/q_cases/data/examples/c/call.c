#include "record.h"

static __attribute__((noinline)) u64 twice(u64 number)
{
    return number + number;
}

/* Refused: a program has no calls. Were `twice` a plain `static inline`, there would be none. */
u64 program(const struct record *record, u64 length, u64 accumulator)
{
    return accumulator + twice(record->node);
}
