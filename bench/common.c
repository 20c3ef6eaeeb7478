// What all programs of this folder share (common.h).
#include "common.h"

#include <time.h>

uint64_t draw(uint64_t *seed) {
    uint64_t z = (*seed += 0x9e3779b97f4a7c15);
    z = (z ^ (z >> 30)) * 0xbf58476d1ce4e5b9;
    z = (z ^ (z >> 27)) * 0x94d049bb133111eb;
    return z ^ (z >> 31);
}

unsigned below(uint64_t *seed, unsigned n) { return (unsigned)((draw(seed) >> 32) * n >> 32); }

void draw_bytes(uint64_t *seed, uint8_t *to, size_t n) {
    for (size_t i = 0; i < n; i++) to[i] = (uint8_t)(draw(seed) >> 56);
}

void draw_bits(uint64_t *seed, uint8_t *to, size_t n) {
    for (size_t i = 0; i < n; i++) to[i] = (uint8_t)(draw(seed) >> 63);
}

void draw_places(uint64_t *seed, unsigned *places, unsigned count, unsigned n) {
    for (unsigned i = 0; i < count; i++) {
        bool again = true;
        while (again) {
            places[i] = below(seed, n);
            again = false;
            for (unsigned j = 0; j < i; j++) again |= places[j] == places[i];
        }
    }
}

void spoil_bytes(uint64_t *seed, uint8_t *word, unsigned count) {
    unsigned places[KW_WORD];
    draw_places(seed, places, count, KW_WORD);
    for (unsigned i = 0; i < count; i++) word[places[i]] ^= (uint8_t)(1 + below(seed, 255));
}

void spoil_bits(uint64_t *seed, uint8_t *bits, size_t n, unsigned count) {
    unsigned places[KW_FRAME];
    draw_places(seed, places, count, (unsigned)n);
    for (unsigned i = 0; i < count; i++) bits[places[i]] ^= 1;
}

static unsigned long checks, faults;

void check(bool good, const char *what, unsigned long at) {
    checks++;
    if (good) return;
    if (++faults <= 10) printf("FAULT at %lu: %s\n", at, what);
}

int finish(const char *program) {
    printf("%s: %lu checks, %lu faults\n", program, checks, faults);
    return faults != 0;
}

size_t distance(const uint8_t *a, const uint8_t *b, size_t n) {
    size_t d = 0;
    for (size_t i = 0; i < n; i++) d += a[i] != b[i];
    return d;
}

enum { PASSES = 3 };

static double cpu_seconds(void) {
    struct timespec t;
    clock_gettime(CLOCK_PROCESS_CPUTIME_ID, &t);
    return (double)t.tv_sec + 1e-9 * (double)t.tv_nsec;
}

static int by_size(const void *a, const void *b) {
    double x = *(const double *)a, y = *(const double *)b;
    return (x > y) - (x < y);
}

void race(Racer *racers, unsigned count, unsigned inputs, unsigned rounds) {
    double *times = malloc(sizeof(double) * count * rounds);
    if (!times) exit(2);
    for (unsigned r = 0; r < rounds; r++)
        for (unsigned k = 0; k < count; k++) {
            for (unsigned i = 0; i < inputs; i++) racers[k].job(i);  // not timed: fills the caches
            double start = cpu_seconds();
            for (unsigned i = 0; i < PASSES * inputs; i++) racers[k].job(i % inputs);
            times[k * rounds + r] = (cpu_seconds() - start) / (PASSES * inputs) * 1e6;
        }
    for (unsigned k = 0; k < count; k++) {
        qsort(times + k * rounds, rounds, sizeof(double), by_size);
        racers[k].best = times[k * rounds];
        racers[k].median = times[k * rounds + rounds / 2];
    }
    free(times);
}

void print_race(const char *what, const Racer *racers, unsigned count) {
    printf("| %s | %.2f |", what, racers[0].best);
    for (unsigned k = 1; k < count; k++)
        printf(" %.2f | %.2f (%.2f) |", racers[k].best, racers[k].best / racers[0].best, racers[k].median / racers[0].median);
    printf("\n");
}
