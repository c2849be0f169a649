// What the contenders of the harness share.
#ifndef BENCH_H
#define BENCH_H

#include <stdbool.h>
#include <stddef.h>
#include <stdint.h>
#include <time.h>

#define RECORD_LENGTH 64
#define FRAME_LENGTH 512
#define RECORDS 256
#define MOST_RECORDS 4096
#define MOST_UNITS 4096

// A program as bytes, and what it is folded over: so many records, one behind the other. Whether our checker has taken
// the program: then DPDK's verifier is left out.
struct job {
    const uint8_t *program;
    size_t program_length;
    const uint8_t *records;
    size_t count;
    uint64_t start;
    bool is_checked;
};

// What one burst of folds came to, and how long the folds alone took. A contender that counts no steps leaves 0.
struct burst {
    bool is_done;
    uint64_t acc;
    uint64_t steps;
    double nanoseconds;
};

// So many folds of a job, one behind the other, each from its start.
typedef struct burst folds_of(const struct job *job, uint64_t folds);

folds_of by_our_loop, by_our_machine;     // ours.c
folds_of by_run_fold, by_fold_checked;    // view.c
folds_of by_checked_c;                    // checked.c
folds_of by_dpdk;                         // dpdk.c

// Whether DPDK's interpreter has each instruction of a program.
bool is_known_to_dpdk(const uint8_t *program, size_t length); // dpdk.c

// The bytes of assembler text; 0 where it is refused.
size_t assembled(const char *source, size_t length, uint8_t *bytes, size_t room); // ours.c

// Records of a kind, made of a row of numbers that look random; false where there is no such kind.
bool fill(const char *kind, uint8_t *records, size_t count, uint64_t *state); // records.c

static inline double now(void) {
    struct timespec time;
    clock_gettime(CLOCK_MONOTONIC, &time);
    return time.tv_sec * 1e9 + time.tv_nsec;
}

#endif
