// Records that look random, of the kinds that the programs are for.
#include "bench.h"
#include <string.h>

#define VALUE_AT 16

// A row of numbers that look random.
static uint64_t next(uint64_t *state) {
    *state = *state * 6364136223846793005u + 1442695040888963407u;
    return *state >> 33;
}

static uint64_t wide(uint64_t *state) { return next(state) << 42 ^ next(state) << 21 ^ next(state); }

static void random_bytes(uint8_t *record, uint64_t *state) {
    for (size_t at = VALUE_AT; at < RECORD_LENGTH; at++)
        record[at] = next(state);
}

// Numbers of eight bytes, small ones as often as large ones.
static void small(uint8_t *record, uint64_t *state) {
    for (size_t at = VALUE_AT; at < RECORD_LENGTH; at += 8) {
        uint64_t number = wide(state) >> next(state) % 64;
        memcpy(record + at, &number, 8);
    }
}

// Digits alone, or with commas and dots between.
static void digits(uint8_t *record, uint64_t *state) {
    bool has_gaps = next(state) & 1, was_gap = true;
    for (size_t at = VALUE_AT; at < RECORD_LENGTH; at++) {
        was_gap = has_gaps && !was_gap && next(state) % 3 == 0;
        record[at] = was_gap ? ",."[next(state) & 1] : '0' + next(state) % 10;
        if (!has_gaps && next(state) % 64 == 0)
            record[at] = 'X';
    }
}

// Words with spaces between, behind a method of HTTP or not. Few letters are not ASCII.
static void text(uint8_t *record, uint64_t *state) {
    static const char *const methods[] = {"GET ", "POST ", "PUT ", "HEAD ", "PATCH "};
    static const char signs[] = "0123456789+/-.AEIOTRS";
    size_t at = VALUE_AT;
    if (next(state) & 3) {
        const char *method = methods[next(state) % 5];
        memcpy(record + at, method, strlen(method));
        at += strlen(method);
    }
    while (at < RECORD_LENGTH) {
        uint64_t draw = next(state) % 64;
        if (draw < 9)
            record[at++] = ' ';
        else if (draw < 16)
            record[at++] = signs[next(state) % (sizeof signs - 1)];
        else if (draw < 18 && at + 2 <= RECORD_LENGTH) {
            record[at++] = 0xc3;
            record[at++] = 0x80 | (next(state) & 0x3f);
        } else if (draw < 19 && at + 3 <= RECORD_LENGTH) {
            record[at++] = 0xe2;
            record[at++] = 0x80 | (next(state) & 0x3f);
            record[at++] = 0x80 | (next(state) & 0x3f);
        } else
            record[at++] = 'a' + next(state) % 26;
    }
}

static void put2(uint8_t *at, uint32_t half) {
    at[0] = half >> 8;
    at[1] = half;
}

static void put4(uint8_t *at, uint32_t word) {
    put2(at, word >> 16);
    put2(at + 2, word);
}

static uint32_t address(uint64_t *state) {
    static const uint32_t nets[] = {0x0a000000, 0x0a010000, 0x0a010200, 0xac100000, 0xc0a80100, 0xc0a81000, 0x7f000000};
    static const uint32_t sizes[] = {24, 16, 8, 20, 8, 12, 24};
    uint64_t draw = next(state) % 10;
    return draw < 7 ? nets[draw] | (next(state) & ((1u << sizes[draw]) - 1)) : wide(state);
}

static uint32_t port(uint64_t *state) {
    static const uint32_t known[] = {53, 80, 443, 22, 123, 67, 68, 33440};
    return next(state) & 1 ? known[next(state) & 7] : next(state) & 0xffff;
}

// IPv4 with TCP, UDP or ICMP behind it; one in sixteen is malformed, as random bytes are.
static void packets(uint8_t *record, uint64_t *state) {
    static const uint8_t protocols[] = {6, 6, 6, 6, 17, 17, 17, 1};
    static const uint8_t flags[] = {0x02, 0x12, 0x10, 0x18, 0x10, 0x11, 0x04, 0x14};
    random_bytes(record, state);
    if (next(state) % 16 == 0)
        return;
    uint8_t *head = record + VALUE_AT;
    head[0] = next(state) % 8 == 0 ? 0x46 : 0x45;
    put2(head + 2, 40 + next(state) % 1460);
    if (next(state) % 8)
        put2(head + 6, 0x4000);
    head[8] = next(state) % 4 ? 64 : next(state);
    head[9] = protocols[next(state) & 7];
    put4(head + 12, address(state));
    put4(head + 16, address(state));
    put2(head + 20, port(state));
    put2(head + 22, port(state));
    if (head[9] == 6)
        head[33] = flags[next(state) & 7];
    else
        put2(head + 24, 8 + next(state) % 1024);
}

// Bytes that mostly are lengths of few bytes.
static void chains(uint8_t *record, uint64_t *state) {
    for (size_t at = VALUE_AT; at < RECORD_LENGTH; at++)
        record[at] = next(state) % 32 == 0 ? next(state) : next(state) % 12;
}

static const struct {
    const char *name;
    void (*fill)(uint8_t *record, uint64_t *state);
} kinds[] = {
    {"random", random_bytes}, {"small", small},     {"digits", digits},
    {"text", text},           {"packets", packets}, {"chains", chains},
};

// Each record has an id, the number of its store and a value, as a view's records have.
bool fill(const char *kind, uint8_t *records, size_t count, uint64_t *state) {
    for (size_t k = 0; k < sizeof kinds / sizeof kinds[0]; k++) {
        if (strcmp(kinds[k].name, kind) != 0)
            continue;
        for (uint64_t at = 0; at < count; at++) {
            uint8_t *record = records + at * RECORD_LENGTH;
            uint64_t id = at + 1, number = 1 + next(state) % 1000;
            memcpy(record, &id, 8);
            memcpy(record + 8, &number, 8);
            kinds[k].fill(record, state);
        }
        return true;
    }
    return false;
}
