// The rules of the link once more, in plain C: short, and the judge where two decoders disagree (docs/RULES.md).
#ifndef REFERENCE_H
#define REFERENCE_H

#include "common.h"

uint8_t product(uint8_t a, uint8_t b);                                 // in the field of 256
bool is_code_word(const uint8_t *word);                                // all 32 syndromes are zero
void reference_encode(const uint8_t *message, uint8_t *word);          // outer code, by division
uint16_t reference_check(const uint8_t *bytes, size_t n);              // the check, bit by bit
void reference_pattern(uint8_t *bits, size_t n);                       // adds the pattern
void reference_inner_encode(const uint8_t *bits, size_t n, uint8_t *out);
void reference_send(const uint8_t *payload, uint8_t *bits);
size_t cost_of(const uint8_t *bits, size_t n, const uint8_t *heard);   // at how many places the coded bits differ from heard

// A plain Viterbi decoder with costs of 32 bits, as one would write it down; it answers the cost. n is at most 2040.
uint32_t plain_decode(const uint8_t *heard, size_t n, uint8_t *bits);

void unpack(const uint8_t *bytes, size_t n, uint8_t *bits);  // highest bit first
void pack(const uint8_t *bits, size_t n, uint8_t *bytes);    // n bytes

#endif
