// Counts one fold of a program over records: how often each unit is run, and how often it does not go on to the next.
//
//     counter PROGRAM KIND
//
// PROGRAM is a file with the program's bytes, and KIND a kind of records. For each unit it prints a line: its bytes as
// 16 hexadecimal digits, and both numbers.
#include "../bench.h"
#include <inttypes.h>
#include <stdio.h>
#include <stdlib.h>
#include <string.h>

static uint64_t run_count[MOST_UNITS], jump_count[MOST_UNITS];

// The unit that was run last. No jump leads to unit 0, where a record run begins.
static size_t last;

static void count_unit(size_t unit) {
    if (unit != 0 && unit != last + 1)
        jump_count[last]++;
    run_count[unit]++;
    last = unit;
}

// The interpreter is that of the harness. It has one `switch`, on the operation of the unit in front of `next`, and
// there each unit is counted; `main` finds out where that is so no more.
#define switch(operation) count_unit(next - 1); switch (operation)
#include "../checked.c"
#undef switch

static void fail(const char *what, const char *name) {
    fprintf(stderr, "counter: %s: %s\n", name, what);
    exit(1);
}

int main(int count, char **words) {
    static uint8_t bytes[MOST_UNITS * 8], records[MOST_RECORDS * RECORD_LENGTH];
    uint64_t state = 1, counted = 0;
    if (count != 3)
        fail("give a program and a kind of records", words[0]);
    FILE *file = fopen(words[1], "rb");
    if (!file)
        fail("it cannot be opened", words[1]);
    size_t length = fread(bytes, 1, sizeof bytes, file);
    if (!fill(words[2], records, MOST_RECORDS, &state))
        fail("bench/records.c has no such records", words[2]);
    struct job job = {bytes, length, records, MOST_RECORDS, 0, true};
    struct burst burst = by_checked_c(&job, 1);
    if (!burst.is_done)
        fail("a record run ends with a fault", words[1]);
    for (size_t unit = 0; unit < length / 8; unit++)
        counted += run_count[unit];
    if (counted != burst.steps)
        fail("not each step is counted: bench/checked.c has changed, and counter.c must follow it", words[1]);
    for (size_t unit = 0; unit < length / 8; unit++) {
        for (size_t byte = 0; byte < 8; byte++)
            printf("%02x", bytes[unit * 8 + byte]);
        printf(" %" PRIu64 " %" PRIu64 "\n", run_count[unit], jump_count[unit]);
    }
}
