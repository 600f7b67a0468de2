// The loops of the closure in C, for comparison: the same tables, row after row in one array, and the same order of
// loops. A line for each measurement: name, kind of table, events, rounds, nanoseconds of all rounds, and a checksum of
// what came out.
#include <stdint.h>
#include <stdio.h>
#include <string.h>
#include <time.h>

enum { EVENTS = 64, NEVER = 127, LONGEST = 64 };

typedef unsigned char entry;

static uint64_t state = 2026;

static uint64_t below(uint64_t bound) {
    state = state * 6364136223846793005u + 1442695040888963407u;
    return (state >> 33) % bound;
}

static uint64_t nanos(void) {
    struct timespec t;
    clock_gettime(CLOCK_MONOTONIC, &t);
    return (uint64_t)t.tv_sec * 1000000000u + (uint64_t)t.tv_nsec;
}

static uint32_t mixed(uint32_t check, uint32_t byte) {
    return (check ^ byte) * 16777619u;
}

// Yes and no.

static void reach_sweep(entry *steps, size_t n, size_t k, size_t low, size_t high) {
    for (size_t i = low; i < high; i++) {
        entry via = steps[i * n + k];
        for (size_t j = 0; j < n; j++)
            steps[i * n + j] |= via & steps[k * n + j];
    }
}

__attribute__((noinline)) static void reach(entry *steps, size_t n) {
    for (size_t k = 0; k < n; k++) {
        reach_sweep(steps, n, k, 0, k);
        reach_sweep(steps, n, k, k + 1, n);
    }
}

// Step counts: a byte of 127 stands for no way, so that the sum of two fits a byte.

static void counts_sweep(entry *steps, size_t n, size_t k, size_t low, size_t high) {
    for (size_t i = low; i < high; i++) {
        entry via = steps[i * n + k];
        for (size_t j = 0; j < n; j++) {
            entry sum = (entry)(via + steps[k * n + j]);
            entry over = sum <= LONGEST ? sum : NEVER;
            entry old = steps[i * n + j];
            steps[i * n + j] = over < old ? over : old;
        }
    }
}

__attribute__((noinline)) static void counts(entry *steps, size_t n) {
    for (size_t k = 0; k < n; k++) {
        counts_sweep(steps, n, k, 0, k);
        counts_sweep(steps, n, k, k + 1, n);
    }
}

static uint32_t amount(entry count) {
    return count == NEVER ? 0 : count;
}

// Relations as rows of bits.

typedef struct {
    uint64_t rows[EVENTS];
} relation;

__attribute__((noinline)) static void then(const relation *a, const relation *b, relation *out) {
    for (size_t i = 0; i < EVENTS; i++) {
        uint64_t all = 0;
        for (size_t k = 0; k < EVENTS; k++)
            all |= b->rows[k] & -(a->rows[i] >> k & 1);
        out->rows[i] = all;
    }
}

__attribute__((noinline)) static void plus(const relation *a, relation *out) {
    *out = *a;
    for (size_t k = 0; k < EVENTS; k++)
        for (size_t i = 0; i < EVENTS; i++)
            out->rows[i] |= out->rows[k] & -(out->rows[i] >> k & 1);
}

// Each round alters one entry of the table, closes it and reads one entry, both at a place that hangs on what was read
// before, so that no round can be left out.

static void time_reach(const char *kind, const entry *base, size_t n, uint32_t rounds) {
    entry work[EVENTS * EVENTS];
    uint32_t check = 2166136261u;
    uint64_t start = nanos();
    for (uint32_t i = 0; i < rounds; i++) {
        size_t place = (check >> 16) % (n * n);
        memcpy(work, base, n * n);
        work[place] = !work[place];
        reach(work, n);
        check = mixed(check, work[place]);
    }
    printf("reach %s %zu %u %llu %u\n", kind, n, rounds, (unsigned long long)(nanos() - start), check);
}

static void time_counts(const char *kind, const entry *base, size_t n, uint32_t rounds) {
    entry work[EVENTS * EVENTS];
    uint32_t check = 2166136261u;
    uint64_t start = nanos();
    for (uint32_t i = 0; i < rounds; i++) {
        size_t place = (check >> 16) % (n * n);
        memcpy(work, base, n * n);
        work[place] = work[place] == NEVER ? 1 : NEVER;
        counts(work, n);
        check = mixed(check, amount(work[place]));
    }
    printf("distances %s %zu %u %llu %u\n", kind, n, rounds, (unsigned long long)(nanos() - start), check);
}

// A step with a chance of `hits` in `out_of`.
static void time_tables(const char *kind, uint64_t hits, uint64_t out_of, size_t n, uint32_t rounds) {
    entry table[EVENTS * EVENTS], single[EVENTS * EVENTS];
    for (size_t p = 0; p < n * n; p++) {
        table[p] = below(out_of) < hits;
        single[p] = table[p] ? 1 : NEVER;
    }
    time_reach(kind, table, n, rounds);
    time_counts(kind, single, n, rounds);
}

static void time_size(size_t n, uint32_t rounds) {
    time_tables("sparse", 1, n, n, rounds);
    time_tables("dense", 3, 8, n, rounds);
}

static void toggle(relation *r, uint32_t check) {
    r->rows[(check >> 16) % EVENTS] ^= (uint64_t)1 << (check >> 24) % EVENTS;
}

static uint32_t told(const relation *r, uint32_t check) {
    return r->rows[(check >> 16) % EVENTS] >> (check >> 24) % EVENTS & 1;
}

static void time_then(const char *kind, relation base, uint32_t rounds) {
    relation out;
    uint32_t check = 2166136261u;
    uint64_t start = nanos();
    for (uint32_t i = 0; i < rounds; i++) {
        relation r = base;
        toggle(&r, check);
        then(&r, &base, &out);
        check = mixed(check, told(&out, check));
    }
    printf("then %s %d %u %llu %u\n", kind, EVENTS, rounds, (unsigned long long)(nanos() - start), check);
}

static void time_plus(const char *kind, relation base, uint32_t rounds) {
    relation out;
    uint32_t check = 2166136261u;
    uint64_t start = nanos();
    for (uint32_t i = 0; i < rounds; i++) {
        relation r = base;
        toggle(&r, check);
        plus(&r, &out);
        check = mixed(check, told(&out, check));
    }
    printf("plus %s %d %u %llu %u\n", kind, EVENTS, rounds, (unsigned long long)(nanos() - start), check);
}

static void time_relations(const char *kind, uint64_t hits, uint64_t out_of) {
    relation base;
    for (size_t i = 0; i < EVENTS; i++) {
        base.rows[i] = 0;
        for (size_t j = 0; j < EVENTS; j++)
            if (below(out_of) < hits)
                base.rows[i] |= (uint64_t)1 << j;
    }
    time_then(kind, base, 65536);
    time_plus(kind, base, 65536);
}

int main(void) {
    time_size(8, 1048576);
    time_size(16, 262144);
    time_size(32, 32768);
    time_size(64, 8192);
    time_relations("sparse", 1, 64);
    time_relations("dense", 3, 8);
    return 0;
}
