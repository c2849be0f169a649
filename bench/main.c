// How long an executed BPF instruction takes: our loop, and other interpreters, in turn.
//
//     harness BURSTS PROGRAM.bpf ..
//
// Each program is folded over the same 256 records by each contender in turn, in so many short bursts, and the least
// time of each counts. All must come to the same accumulator, and those that count steps to the same steps.
#define _GNU_SOURCE
#include "bench.h"
#include <stdio.h>
#include <stdlib.h>
#include <string.h>

enum { LOOP, MACHINE, CHECKED_C, DPDK, RUN_FOLD, FOLD_CHECKED, CONTENDERS };

static folds_of *const contenders[CONTENDERS] = {
    by_our_loop, by_our_machine, by_checked_c, by_dpdk, by_run_fold, by_fold_checked,
};

static const char *const names[CONTENDERS] = {
    "the loop", "run_checked", "checked C", "DPDK", "run_fold", "fold_checked",
};

// What was measured of a program.
struct result {
    char name[32];
    double steps;             // of a record
    double times[CONTENDERS]; // nanoseconds of a record
};

static void fail(const char *what, const char *path) {
    fprintf(stderr, "%s: %s\n", path, what);
    exit(1);
}

static size_t program_of(const char *path, uint8_t *bytes, size_t room) {
    static char source[1 << 17];
    FILE *file = fopen(path, "rb");
    if (!file)
        fail("cannot be opened", path);
    size_t length = fread(source, 1, sizeof source, file);
    fclose(file);
    size_t count = assembled(source, length, bytes, room);
    if (count == 0)
        fail("is refused", path);
    return count;
}

static struct burst agreed(const struct job *job, uint64_t folds, int contender, const struct burst *first,
                           const char *path) {
    struct burst burst = contenders[contender](job, folds);
    if (!burst.is_done)
        fail(names[contender], path);
    if (burst.acc != first->acc)
        fail("the accumulators differ", path);
    if (burst.steps != 0 && burst.steps != first->steps * folds)
        fail("the steps differ", path);
    return burst;
}

static struct result measured(const char *path, const uint8_t *records, int bursts) {
    static uint8_t program[MOST_UNITS * 8];
    struct job job = {program, program_of(path, program, sizeof program), records, RECORDS, 3, false};
    struct burst first = by_checked_c(&job, 1);
    struct result result = {.steps = (double)first.steps / RECORDS};
    const char *name = strrchr(path, '/');
    snprintf(result.name, sizeof result.name, "%s", name ? name + 1 : path);
    *strchrnul(result.name, '.') = 0;
    uint64_t folds = 250000 / (first.steps + 3 * RECORDS) + 1;
    for (int burst = 0; burst < bursts; burst++)
        for (int k = 0; k < CONTENDERS; k++) {
            double time = agreed(&job, folds, k, &first, path).nanoseconds / folds / RECORDS;
            if (burst == 0 || time < result.times[k])
                result.times[k] = time;
        }
    return result;
}

static void print_loop(const struct result *results, int count) {
    printf("Nanoseconds for each executed instruction, and the loop's ratio to each other:\n\n");
    printf("| Program | Steps a record | Loop | `run_checked` | Checked C | DPDK | to `run_checked` | to C | to DPDK |\n");
    printf("|---|---|---|---|---|---|---|---|---|\n");
    for (const struct result *r = results; r < results + count; r++) {
        printf("| %s | %.1f |", r->name, r->steps);
        for (int k = LOOP; k <= DPDK; k++)
            printf(" %.2f |", r->times[k] / r->steps);
        for (int k = MACHINE; k <= DPDK; k++)
            printf(" %.2f |", r->times[LOOP] / r->times[k]);
        printf("\n");
    }
}

static void print_folds(const struct result *results, int count) {
    printf("\nNanoseconds for each record, all in all:\n\n");
    printf("| Program | Loop | DPDK | `run_fold` | `fold_checked` | `run_fold` to `fold_checked` |\n");
    printf("|---|---|---|---|---|---|\n");
    for (const struct result *r = results; r < results + count; r++)
        printf("| %s | %.1f | %.1f | %.1f | %.1f | %.2f |\n", r->name, r->times[LOOP], r->times[DPDK],
               r->times[RUN_FOLD], r->times[FOLD_CHECKED], r->times[RUN_FOLD] / r->times[FOLD_CHECKED]);
}

int main(int count, char **words) {
    static uint8_t records[RECORDS * RECORD_LENGTH];
    static struct result results[64];
    if (count < 3 || count > 66)
        fail("give the number of bursts, and programs", words[0]);
    uint64_t state = 1;
    fill("random", records, RECORDS, &state);
    for (int k = 2; k < count; k++) {
        results[k - 2] = measured(words[k], records, atoi(words[1]));
        fprintf(stderr, "%s\n", results[k - 2].name);
    }
    print_loop(results, count - 2);
    print_folds(results, count - 2);
}
