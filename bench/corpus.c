// The loop on programs that a compiler made, beside DPDK's interpreter, over fresh records.
//
//     harness ROUNDS BURSTS PROGRAMS-FOLDER [kept]
//
// First all contenders must come to the same answers as the C source that the machine's compiler made, for each program
// and each version of BPF that it was built for. Then the times are taken: in each round both run each program in so
// many short bursts in turn, each burst over records of fresh contents. Of a round, the least time of each counts, and
// the middle of the bursts' ratios; of the rounds, the middle. With `kept` a burst is 512 folds over the same eight
// records each time, so that nearly all branches are predicted.
#define _GNU_SOURCE
#include "bench.h"
#include <inttypes.h>
#include <math.h>
#include <stdio.h>
#include <stdlib.h>
#include <string.h>

typedef uint64_t native(const void *record, uint64_t length, uint64_t accumulator);

// The programs: the name, its function as the machine's compiler made it, the kind of records that it is for, and
// whether codes may be chosen by it. Those of bench/run have no source in C.
struct source {
    const char *name;
    native *native;
    const char *kind;
    char half;
};

#define FROM_C(name, kind, half) native c_##name;
#include "corpus.list"
#undef FROM_C

static const struct source sources[] = {
#define FROM_C(name, kind, half) {#name, c_##name, kind, half},
#include "corpus.list"
#undef FROM_C
    {"arithmetic", NULL, "random", 'o'}, {"moves", NULL, "random", 'o'},
    {"sum", NULL, "random", 'o'},        {"branches", NULL, "random", 'o'},
    {"xorshift", NULL, "random", 'o'},   {"befields", NULL, "random", 'o'},
    {"murmur", NULL, "random", 'o'},     {"histogram", NULL, "random", 'o'},
    {"filtered", NULL, "random", 'o'},   {"checksum", NULL, "random", 'o'},
};

enum { SOURCES = sizeof sources / sizeof sources[0], MOST_ROUNDS = 9, MOST_BURSTS = 1000, KEPT = 8 };

// The builds of a program: for versions 2, 3 and 4 of BPF, and assembler text.
enum { V2, V3, V4, TEXT, BUILDS };

static const char *const endings[BUILDS] = {".v2.bin", ".v3.bin", ".v4.bin", ".bpf"};
static const char *const build_names[BUILDS] = {"v2", "v3", "v4", "text"};

// The newest build that DPDK's interpreter has all instructions of, or -1; and the loop's for versions 3 and 4.
struct program {
    const struct source *source;
    uint8_t bytes[BUILDS][MOST_UNITS * 8];
    size_t lengths[BUILDS];
    int shared, third, fourth;
};

// What is timed of a program: both contenders on the shared build, and the loop on those for versions 3 and 4.
enum { LOOP, DPDK, LOOP3, LOOP4, TIMES };

// Of a program in a round: the least nanoseconds of a record, and the middle of the bursts' ratios to DPDK. 0 where
// nothing was taken.
struct round {
    double least[TIMES], ratio[TIMES];
};

static struct program programs[SOURCES];
static struct round taken[SOURCES][MOST_ROUNDS];
static uint8_t records[MOST_RECORDS * RECORD_LENGTH];
static uint64_t state = 1;
static int differences;

// What a burst is: so many folds over so many records, fresh ones or not.
static size_t count_of_burst = MOST_RECORDS;
static uint64_t folds_of_burst = 1;
static bool is_fresh = true;

static void fail(const char *what, const char *name) {
    fprintf(stderr, "%s: %s\n", name, what);
    exit(1);
}

static size_t read_file(const char *folder, const char *name, const char *ending, uint8_t *bytes, size_t room) {
    char path[4096];
    snprintf(path, sizeof path, "%s/%s%s", folder, name, ending);
    FILE *file = fopen(path, "rb");
    if (!file)
        return 0;
    size_t length = fread(bytes, 1, room, file);
    fclose(file);
    return length;
}

static void read_program(struct program *program, const struct source *source, const char *folder) {
    program->source = source;
    for (int build = V2; build <= V4 && source->native; build++) {
        uint8_t *bytes = program->bytes[build];
        program->lengths[build] = read_file(folder, source->name, endings[build], bytes, MOST_UNITS * 8);
    }
    if (!source->native) {
        static uint8_t text[1 << 17];
        size_t length = read_file(folder, source->name, endings[TEXT], text, sizeof text);
        program->lengths[TEXT] = assembled((char *)text, length, program->bytes[TEXT], MOST_UNITS * 8);
    }
    program->shared = -1;
    for (int build = 0; build < BUILDS; build++) {
        bool is_there = program->lengths[build] != 0;
        if (is_there && is_known_to_dpdk(program->bytes[build], program->lengths[build]))
            program->shared = build;
    }
    program->third = program->lengths[V3] ? V3 : program->shared;
    program->fourth = program->lengths[V4] ? V4 : program->third;
    if (program->fourth < 0)
        fail("there are no bytes of it", source->name);
}

static struct job job_of(const struct program *program, int build, const uint8_t *from, size_t count, uint64_t start) {
    return (struct job){program->bytes[build], program->lengths[build], from, count, start, true};
}

// The answer of the C source.
static uint64_t by_source(const struct source *source, const uint8_t *from, size_t count, uint64_t start) {
    for (size_t k = 0; k < count; k++)
        start = source->native(from + k * RECORD_LENGTH, RECORD_LENGTH, start);
    return start;
}

// The contenders whose answers are compared. Checked C says what is right where there is no source.
static folds_of *const answering[] = {by_checked_c, by_our_loop, by_our_machine, by_dpdk};
static const char *const answering_names[] = {"checked C", "the loop", "run_checked", "DPDK"};
enum { ANSWERING = 4 };

static bool can_run(const struct program *program, int build, int contender) {
    return answering[contender] != by_dpdk || is_known_to_dpdk(program->bytes[build], program->lengths[build]);
}

// Whether all come to one answer over these records; where not, and there is one record, all is printed.
static bool is_agreed(const struct program *program, int build, const uint8_t *from, size_t count, uint64_t start) {
    struct job job = job_of(program, build, from, count, start);
    struct burst bursts[ANSWERING] = {0};
    const struct source *source = program->source;
    bool is_same = true;
    for (int k = 0; k < ANSWERING; k++) {
        if (!can_run(program, build, k))
            continue;
        bursts[k] = answering[k](&job, 1);
        bool has_steps = bursts[k].steps != 0;
        is_same = is_same && bursts[k].is_done && bursts[k].acc == bursts[0].acc;
        is_same = is_same && (!has_steps || bursts[k].steps == bursts[0].steps);
    }
    uint64_t wanted = source->native ? by_source(source, from, count, start) : bursts[0].acc;
    if (is_same && wanted == bursts[0].acc)
        return true;
    if (count != 1)
        return false;
    printf("%s%s: from the accumulator 0x%" PRIx64 " over the record", source->name, endings[build], start);
    for (size_t at = 0; at < RECORD_LENGTH; at++)
        printf("%s%02x", at % 8 == 0 ? " " : "", from[at]);
    printf("\n  %-12s 0x%" PRIx64 "\n", source->native ? "C" : "checked C", wanted);
    for (int k = 0; k < ANSWERING; k++)
        if (can_run(program, build, k))
            printf("  %-12s 0x%" PRIx64 ", %" PRIu64 " steps%s\n", answering_names[k], bursts[k].acc, bursts[k].steps,
                   bursts[k].is_done ? "" : ", refused or stopped");
    return false;
}

// Where a fold differs: the first record over which one does, or that the folds differ and no record alone does.
static void tell_difference(const struct program *program, int build, uint64_t start) {
    const struct source *source = program->source;
    for (size_t k = 0; k < MOST_RECORDS; k++) {
        const uint8_t *record = records + k * RECORD_LENGTH;
        if (!is_agreed(program, build, record, 1, start))
            return;
        struct job job = job_of(program, build, record, 1, start);
        start = by_checked_c(&job, 1).acc;
    }
    printf("%s%s: the folds differ, and over no record alone\n", source->name, endings[build]);
}

// A build of a program over records of its kind or of random bytes: in one fold, and some of the records alone, each
// from another accumulator. Whether all answers are the same.
static bool compare_over(const struct program *program, int build, const char *kind) {
    if (!fill(kind, records, MOST_RECORDS, &state))
        fail("there are no such records", kind);
    uint64_t start = state * 0x9e3779b97f4a7c15 ^ state >> 17;
    if (!is_agreed(program, build, records, MOST_RECORDS, start)) {
        tell_difference(program, build, start);
        return false;
    }
    for (size_t k = 0; k < 16; k++) {
        start = start * 6364136223846793005u + 1442695040888963407u;
        if (!is_agreed(program, build, records + k * 251 * RECORD_LENGTH, 1, start))
            return false;
    }
    return true;
}

static bool compare_build(const struct program *program, int build) {
    struct job job = job_of(program, build, records, 1, 0);
    if (!by_our_loop(&job, 1).is_done) {
        printf("%s%s: is refused by the checker\n", program->source->name, endings[build]);
        return false;
    }
    for (int turn = 0; turn < 6; turn++)
        if (!compare_over(program, build, turn % 3 == 2 ? "random" : program->source->kind))
            return false;
    return true;
}

static void compare(const struct program *program) {
    for (int build = 0; build < BUILDS; build++)
        if (program->lengths[build] != 0 && !compare_build(program, build))
            differences++;
}

static double time_of(folds_of *contender, const struct program *program, int build) {
    struct job job = job_of(program, build, records, count_of_burst, 3);
    struct burst burst = contender(&job, folds_of_burst);
    if (!burst.is_done)
        fail("a burst is not done", program->source->name);
    return burst.nanoseconds / (count_of_burst * folds_of_burst);
}

static void fill_for(const struct program *program) {
    uint64_t same = 1;
    fill(program->source->kind, records, count_of_burst, is_fresh ? &state : &same);
}

static int by_size(const void *a, const void *b) {
    double one = *(const double *)a, other = *(const double *)b;
    return (one > other) - (one < other);
}

static double middle(double *numbers, int count) {
    qsort(numbers, count, sizeof *numbers, by_size);
    return count % 2 ? numbers[count / 2] : (numbers[count / 2 - 1] + numbers[count / 2]) / 2;
}

// The times of one burst, 0 where there is none. What the loop takes on a build that is the one before is taken from
// there.
static void measure_burst(const struct program *program, double *times) {
    int shared = program->shared, third = program->third, fourth = program->fourth;
    fill_for(program);
    memset(times, 0, TIMES * sizeof *times);
    if (shared >= 0) {
        times[DPDK] = time_of(by_dpdk, program, shared);
        times[LOOP] = time_of(by_our_loop, program, shared);
    }
    if (third >= 0)
        times[LOOP3] = third == shared ? times[LOOP] : time_of(by_our_loop, program, third);
    times[LOOP4] = fourth == third ? times[LOOP3] : time_of(by_our_loop, program, fourth);
}

static struct round measured(const struct program *program, int bursts) {
    static double times[MOST_BURSTS][TIMES], column[MOST_BURSTS];
    struct round round = {0};
    for (int burst = 0; burst < bursts; burst++)
        measure_burst(program, times[burst]);
    for (int which = 0; which < TIMES; which++) {
        for (int burst = 0; burst < bursts; burst++)
            column[burst] = times[burst][which];
        qsort(column, bursts, sizeof *column, by_size);
        round.least[which] = column[0];
        for (int burst = 0; burst < bursts && program->shared >= 0; burst++)
            column[burst] = times[burst][which] / times[burst][DPDK];
        round.ratio[which] = program->shared >= 0 ? middle(column, bursts) : 0;
    }
    return round;
}

// The middle of the rounds.
static double of_rounds(int index, int rounds, int which, bool is_ratio) {
    double numbers[MOST_ROUNDS];
    for (int round = 0; round < rounds; round++)
        numbers[round] = is_ratio ? taken[index][round].ratio[which] : taken[index][round].least[which];
    return middle(numbers, rounds);
}

// The steps of a record in the shared build.
static double steps_of(const struct program *program) {
    struct job job = job_of(program, program->shared, records, count_of_burst, 3);
    fill_for(program);
    return (double)by_checked_c(&job, 1).steps / count_of_burst;
}

static void print_programs(char half, const char *title, int rounds) {
    printf("%s\n\n", title);
    printf("| Program | Records | Build | Steps | Loop | DPDK | Ratio | Loop, v3 | Ratio | Loop, v4 | Ratio |\n");
    printf("|---|---|---|---|---|---|---|---|---|---|---|\n");
    for (int k = 0; k < SOURCES; k++) {
        const struct program *program = &programs[k];
        if (program->source->half != half)
            continue;
        printf("| %s | %s |", program->source->name, program->source->kind);
        if (program->shared < 0)
            printf(" | | | | |");
        else
            printf(" %s | %.1f | %.1f | %.1f | %.2f |", build_names[program->shared], steps_of(program),
                   of_rounds(k, rounds, LOOP, false), of_rounds(k, rounds, DPDK, false),
                   of_rounds(k, rounds, LOOP, true));
        for (int which = LOOP3; which <= LOOP4; which++) {
            int build = which == LOOP3 ? program->third : program->fourth;
            if (build < 0 || build == (which == LOOP3 ? program->shared : program->third))
                printf(" | |");
            else if (program->shared < 0)
                printf(" %.1f | |", of_rounds(k, rounds, which, false));
            else
                printf(" %.1f | %.2f |", of_rounds(k, rounds, which, false), of_rounds(k, rounds, which, true));
        }
        printf("\n");
    }
    printf("\n");
}

static void print_means(char half, const char *title, int rounds) {
    for (int which = LOOP; which <= LOOP4; which++) {
        static const char *const builds[] = {"that of both", "", "v3", "v4"};
        double ratios[SOURCES], sum = 0;
        int count = 0;
        for (int k = 0; k < SOURCES; k++)
            if (programs[k].source->half == half && programs[k].shared >= 0)
                ratios[count++] = of_rounds(k, rounds, which, true);
        for (int k = 0; k < count; k++)
            sum += log(ratios[k]);
        if (which == DPDK || count == 0 || (half == 'o' && which != LOOP))
            continue;
        double half_way = middle(ratios, count);
        printf("| %s | %d | %s | %.2f | %.2f | %.2f | %.3f |\n", title, count, builds[which], ratios[0], half_way,
               ratios[count - 1], exp(sum / count));
    }
}

// How far the rounds are apart in the ratio on the shared build.
static void print_spread(int rounds) {
    double spreads[SOURCES];
    int count = 0;
    for (int k = 0; k < SOURCES; k++) {
        if (programs[k].shared < 0)
            continue;
        double least = INFINITY, greatest = 0;
        for (int round = 0; round < rounds; round++) {
            double ratio = taken[k][round].ratio[LOOP];
            least = fmin(least, ratio);
            greatest = fmax(greatest, ratio);
        }
        spreads[count++] = greatest - least;
    }
    double half_way = middle(spreads, count);
    double most = spreads[count - 1];
    printf("\nBetween rounds a ratio differs by %.2f in the middle, and by %.2f at most.\n", half_way, most);
}

int main(int count, char **words) {
    bool is_kept = count == 5 && strcmp(words[4], "kept") == 0, is_called = count == 4 || is_kept;
    int rounds = is_called ? atoi(words[1]) : 0, bursts = is_called ? atoi(words[2]) : 0;
    if (rounds < 1 || rounds > MOST_ROUNDS || bursts < 1 || bursts > MOST_BURSTS)
        fail("give the number of rounds, at most 9, that of bursts, at most 1000, and the programs' folder", words[0]);
    if (is_kept)
        is_fresh = false, count_of_burst = KEPT, folds_of_burst = MOST_RECORDS / KEPT;
    int builds = 0;
    for (int k = 0; k < SOURCES; k++) {
        read_program(&programs[k], &sources[k], words[3]);
        for (int build = 0; build < BUILDS; build++)
            builds += programs[k].lengths[build] != 0;
        compare(&programs[k]);
    }
    if (differences) {
        printf("%d builds are refused or differ\n", differences);
        return 1;
    }
    printf("%d programs in %d builds: all answers are the same\n\n", SOURCES, builds);
    fflush(stdout);
    for (int round = 0; round < rounds; round++)
        for (int k = 0; k < SOURCES; k++) {
            taken[k][round] = measured(&programs[k], bursts);
            fprintf(stderr, "round %d: %s\n", round + 1, sources[k].name);
        }
    printf("Nanoseconds for each record.\n\n");
    print_programs('n', "Not used to choose codes:", rounds);
    print_programs('u', "Free to be used:", rounds);
    print_programs('o', "The ten of bench/run:", rounds);
    printf("Ratios to DPDK:\n\n");
    printf("| Programs | Number | Build for the loop | Least | Middle | Greatest | Geometric mean |\n");
    printf("|---|---|---|---|---|---|---|\n");
    print_means('n', "not used to choose codes", rounds);
    print_means('u', "free to be used", rounds);
    print_means('o', "the ten of bench/run", rounds);
    print_spread(rounds);
}
