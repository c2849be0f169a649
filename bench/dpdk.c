// The BPF interpreter of DPDK, from its library.
//
// It gives a program one pointer and no accumulator. So the accumulator lies behind each record's copy, and one more
// instruction in front of the program, which is not counted, reads it. No record is copied in a fold, and DPDK's own
// frame is not cleared.
//
// DPDK's verifier goes along every path of a program: with thirty branches in a row there are too many. So a program
// that our checker has taken gets into the interpreter without it: what is loaded is a program of as many units that do
// nothing, and then the units are put in their place.
#include "bench.h"
#include <rte_bpf.h>
#include <string.h>
#include <sys/mman.h>
#include <unistd.h>

struct row {
    uint8_t record[RECORD_LENGTH];
    uint64_t acc;
};

// load8 r3, [r1+64]; mov64 r0, 0; exit
static const uint8_t FIRST[8] = {0x79, 0x13, 64, 0, 0, 0, 0, 0};
static const uint8_t NOTHING[8] = {0xb7, 0, 0, 0, 0, 0, 0, 0};
static const uint8_t EXIT[8] = {0x95, 0, 0, 0, 0, 0, 0, 0};

bool is_known_to_dpdk(const uint8_t *program, size_t length) {
    for (size_t at = 0; at < length; at += 8) {
        uint8_t opcode = program[at], class = opcode & 7;
        bool is_jump32 = class == 6, is_wide = opcode == 0x18;
        bool is_signed_load = class == 1 && opcode >> 5 != 3;
        bool is_arithmetic = class == 4 || class == 7;
        bool is_new = is_arithmetic && (program[at + 2] || program[at + 3] || opcode == 0xd7);
        bool is_signed_shift32 = class == 4 && opcode >> 4 == 0xc;
        if (is_jump32 || is_signed_load || is_new || is_signed_shift32)
            return false;
        if (is_wide)
            at += 8;
    }
    return true;
}

static struct rte_bpf *load(const uint8_t *units, size_t count) {
    struct rte_bpf_prm parameters = {
        .ins = (const struct ebpf_insn *)units,
        .nb_ins = count,
        .prog_arg = {.type = RTE_BPF_ARG_PTR, .size = sizeof(struct row)},
    };
    return rte_bpf_load(&parameters);
}

// A loaded program of these units, at which DPDK's verifier has not looked. What DPDK keeps of a program begins with
// its parameters, and these name its own copy of the units: that they do is tested.
static struct rte_bpf *load_unseen(const uint8_t *units, size_t count) {
    static uint8_t stand_in[(MOST_UNITS + 1) * 8];
    for (size_t k = 0; k < count; k++)
        memcpy(stand_in + k * 8, k + 1 < count ? NOTHING : EXIT, 8);
    struct rte_bpf *bpf = load(stand_in, count);
    if (!bpf)
        return NULL;
    const struct rte_bpf_prm *kept = (const struct rte_bpf_prm *)bpf;
    if (kept->nb_ins != count || memcmp(kept->ins, stand_in, count * 8) != 0)
        return NULL;
    uintptr_t from = (uintptr_t)kept->ins & -(uintptr_t)getpagesize(), to = (uintptr_t)(kept->ins + count);
    if (mprotect((void *)from, to - from, PROT_READ | PROT_WRITE) != 0)
        return NULL;
    memcpy((void *)kept->ins, units, count * 8);
    return bpf;
}

// The loaded program of a job. It is kept for the job's next burst, since DPDK's verifier looks at every path.
static struct rte_bpf *loaded(const struct job *job) {
    static struct rte_bpf *bpf;
    static uint8_t units[(MOST_UNITS + 1) * 8];
    static size_t length;
    if (bpf && length == job->program_length && memcmp(units + 8, job->program, length) == 0)
        return bpf;
    if (bpf)
        rte_bpf_destroy(bpf);
    length = job->program_length;
    memcpy(units, FIRST, 8);
    memcpy(units + 8, job->program, length);
    bpf = (job->is_checked ? load_unseen : load)(units, length / 8 + 1);
    return bpf;
}

struct burst by_dpdk(const struct job *job, uint64_t folds) {
    static struct row rows[MOST_RECORDS];
    for (size_t k = 0; k < job->count; k++)
        memcpy(rows[k].record, job->records + k * RECORD_LENGTH, RECORD_LENGTH);
    struct burst burst = {true, 0, 0, 0};
    struct rte_bpf *bpf = loaded(job);
    if (!bpf)
        return (struct burst){0};
    double start = now();
    for (uint64_t fold = 0; fold < folds; fold++) {
        burst.acc = job->start;
        for (size_t k = 0; k < job->count; k++) {
            rows[k].acc = burst.acc;
            burst.acc = rte_bpf_exec(bpf, &rows[k]);
        }
    }
    burst.nanoseconds = now() - start;
    return burst;
}
