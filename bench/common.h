// What all programs of this folder share: sizes, random numbers, counting faults, timing in turns.
#ifndef COMMON_H
#define COMMON_H

#include <stdbool.h>
#include <stddef.h>
#include <stdint.h>
#include <stdio.h>
#include <stdlib.h>
#include <string.h>

#include "../include/katydidwire.h"

// Random numbers (splitmix64): one seed, the same numbers on every machine.
uint64_t draw(uint64_t *seed);
unsigned below(uint64_t *seed, unsigned n);
void draw_bytes(uint64_t *seed, uint8_t *to, size_t n);
void draw_bits(uint64_t *seed, uint8_t *to, size_t n);
void draw_places(uint64_t *seed, unsigned *places, unsigned count, unsigned n);  // different places below n
void spoil_bytes(uint64_t *seed, uint8_t *word, unsigned count);                 // changes that many bytes of a word
void spoil_bits(uint64_t *seed, uint8_t *bits, size_t n, unsigned count);        // turns that many bits over

// Counts a check; a failed one is a fault, and the first ten are printed.
void check(bool good, const char *what, unsigned long at);
int finish(const char *program);  // prints the counts; 0 if there was no fault

size_t distance(const uint8_t *a, const uint8_t *b, size_t n);  // Hamming distance

// Times of jobs in one run: all jobs in turns, `rounds` times, each on the same inputs. CPU time, in microseconds per call.
typedef struct {
    const char *name;
    void (*job)(unsigned input);  // one call, on prepared input number `input`
    double best, median;
} Racer;
void race(Racer *racers, unsigned count, unsigned inputs, unsigned rounds);
// Prints a row of a table: what was timed, the first racer's time, and for each other its time and how often it fits ours.
void print_race(const char *what, const Racer *racers, unsigned count);

#endif
