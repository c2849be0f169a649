// What both static libraries of this repository share: how they are called, and how the time of their folds is taken.
#ifndef OURS_H
#define OURS_H

#include "bench.h"

struct folded {
    uint64_t acc, steps;
    bool is_done;
};

struct way {
    uint64_t start, folds;
    bool is_tested;
};

typedef struct folded library_folds(const uint8_t *program, size_t program_length, const uint8_t *records,
                                    size_t records_length, const struct way *way);

struct burst timed(library_folds *folds_of, const struct job *job, uint64_t folds, bool is_tested); // ours.c

#endif
