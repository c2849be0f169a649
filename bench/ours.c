// The folds of this repository over records as they lie in memory, from the static library of crates/q_speed.
//
// A call of the library decodes the program, finds and checks its notes and makes a block or a view before it folds.
// All that takes memory, and a fold takes none. So the folds lie between the last allocation and the first release
// behind it: the linker gives malloc, realloc and free of the libraries to the functions below, which note the time.
#include "ours.h"
#include <stdlib.h>

library_folds q_speed_flat;
size_t q_speed_assemble(const uint8_t *source, size_t source_length, uint8_t *buffer, size_t buffer_length);

static double began, ended;

void *__real_malloc(size_t size);
void *__real_realloc(void *memory, size_t size);
void __real_free(void *memory);

static void *given(void *memory) {
    ended = 0;
    began = now();
    return memory;
}

void *__wrap_malloc(size_t size) { return given(__real_malloc(size)); }

void *__wrap_realloc(void *memory, size_t size) { return given(__real_realloc(memory, size)); }

void __wrap_free(void *memory) {
    if (ended == 0)
        ended = now();
    __real_free(memory);
}

struct burst timed(library_folds *folds_of, const struct job *job, uint64_t folds, bool is_tested) {
    struct way way = {job->start, folds, is_tested};
    struct folded folded = folds_of(job->program, job->program_length, job->records, job->count * RECORD_LENGTH, &way);
    return (struct burst){folded.is_done, folded.acc, folded.steps, ended - began};
}

struct burst by_our_loop(const struct job *job, uint64_t folds) { return timed(q_speed_flat, job, folds, false); }

struct burst by_our_machine(const struct job *job, uint64_t folds) { return timed(q_speed_flat, job, folds, true); }

size_t assembled(const char *source, size_t length, uint8_t *bytes, size_t room) {
    return q_speed_assemble((const uint8_t *)source, length, bytes, room);
}
