// The same codes and frames put together from libfec's and libosmocore's parts.
#ifndef PEERS_H
#define PEERS_H

#include "common.h"

void peers_open(void);  // once, before the others

// libfec's Reed-Solomon code. Repair answers libfec's own number: bytes changed (it may be above 16), or below 0.
void fec_encode(const uint8_t *message, uint8_t *word);
int fec_repair(uint8_t *word);

// libfec's Viterbi decoder for n bits, n a multiple of 8, at most 2040. Its bits come packed, highest first.
void fec_inner_decode(const uint8_t *heard, size_t n, uint8_t *bytes);

// libosmocore's encoder and decoder for n bits, n at most 2040.
void osmo_inner_encode(const uint8_t *bits, size_t n, uint8_t *out);
void osmo_inner_decode(const uint8_t *heard, size_t n, uint8_t *bits);

// An encoder by tables, a byte of bits at a time: faster than libosmocore's.
void table_inner_encode(const uint8_t *bytes, size_t n, uint8_t *out);

// The word of a payload as it goes into the inner code, with the pattern added.
void sent_word(const uint8_t *payload, uint8_t *word);

// Frames. `hear` answers 1 and the payload, or 0 and zeros; words with more than 16 bytes changed count as lost.
void osmo_send(const uint8_t *payload, uint8_t *bits);   // libfec's outer code, libosmocore's encoder
void table_send(const uint8_t *payload, uint8_t *bits);  // libfec's outer code, the encoder by tables
int osmo_hear(const uint8_t *bits, uint8_t *payload);    // libosmocore's decoder, libfec's outer code
int fec_hear(const uint8_t *bits, uint8_t *payload);     // both of libfec

#endif
