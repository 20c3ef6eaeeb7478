// The same codes and frames put together from libfec's and libosmocore's parts (peers.h).
#include "peers.h"

#include <fec.h>
#include <osmocom/core/conv.h>

#include "reference.h"

static void *outer, *viterbi;
static uint8_t outputs[64][2], states[64][2];  // libosmocore's tables: its newest bit counts 1, not 32
static uint64_t byte_out[256][2];              // coded bits of a byte of bits, from state 0
static uint64_t state_out[64][2];              // what a state (newest bit counts 32) adds to them
static uint8_t state_after[256];               // the state behind a byte of bits
static uint8_t pattern[KW_WORD];
static uint16_t checks[256];

static unsigned reversed(unsigned state) {
    unsigned r = 0;
    for (int k = 0; k < 6; k++) r |= (state >> k & 1) << (5 - k);
    return r;
}

static uint8_t pair(unsigned window) { return (uint8_t)(2 * __builtin_parity(window & 121) + __builtin_parity(window & 91)); }

static void eight_pairs(unsigned byte, unsigned state, uint64_t *to) {
    uint8_t out[16];
    for (int k = 0; k < 8; k++) {
        unsigned window = 64 * (byte >> (7 - k) & 1) + state;
        out[2 * k] = pair(window) >> 1;
        out[2 * k + 1] = pair(window) & 1;
        state = window / 2;
    }
    memcpy(to, out, 16);
}

void peers_open(void) {
    outer = init_rs_char(8, 0x11d, 1, 1, 32, 0);
    viterbi = create_viterbi27(KW_WORD_BITS);
    if (!outer || !viterbi) exit(2);
    // libfec's newest bit counts 1, so that the masks 1111001 and 1011011 (newest first) read 1001111 and 1101101.
    set_viterbi27_polynomial((int[]){0x4f, 0x6d});

    for (unsigned s = 0; s < 64; s++)
        for (unsigned b = 0; b < 2; b++) {
            outputs[s][b] = pair(64 * b + reversed(s));
            states[s][b] = (uint8_t)((2 * s + b) % 64);
        }
    for (unsigned byte = 0; byte < 256; byte++) state_after[byte] = (uint8_t)reversed(byte & 63);
    for (unsigned byte = 0; byte < 256; byte++) eight_pairs(byte, 0, byte_out[byte]);
    for (unsigned state = 0; state < 64; state++) eight_pairs(0, state, state_out[state]);
    uint8_t bits[KW_WORD_BITS] = {0};
    reference_pattern(bits, KW_WORD_BITS);
    pack(bits, KW_WORD, pattern);
    for (unsigned b = 0; b < 256; b++) {
        unsigned c = b << 8;
        for (int k = 0; k < 8; k++) c = c & 0x8000 ? (c << 1 ^ 0x1021) & 0xffff : c << 1;
        checks[b] = (uint16_t)c;
    }
}

void fec_encode(const uint8_t *message, uint8_t *word) {
    memcpy(word, message, KW_MESSAGE);
    encode_rs_char(outer, word, word + KW_MESSAGE);
}

int fec_repair(uint8_t *word) { return decode_rs_char(outer, word, NULL, 0); }

void fec_inner_decode(const uint8_t *heard, size_t n, uint8_t *bytes) {
    // 127 and 128 make each wrong bit cost 1, against a bias of 63 on the wrong states at the start.
    uint8_t symbols[KW_FRAME];
    for (size_t i = 0; i < 2 * (n + 6); i++) symbols[i] = 127 + heard[i];
    init_viterbi27(viterbi, 0);
    update_viterbi27_blk(viterbi, symbols, (int)(n + 6));
    chainback_viterbi27(viterbi, bytes, (unsigned)n, 0);
}

static struct osmo_conv_code code_of(size_t n) {
    return (struct osmo_conv_code){.N = 2,
                                   .K = 7,
                                   .len = (int)n,
                                   .term = CONV_TERM_FLUSH,
                                   .next_output = (const uint8_t(*)[2])outputs,
                                   .next_state = (const uint8_t(*)[2])states};
}

void osmo_inner_encode(const uint8_t *bits, size_t n, uint8_t *out) {
    struct osmo_conv_code code = code_of(n);
    osmo_conv_encode(&code, bits, out);
}

void osmo_inner_decode(const uint8_t *heard, size_t n, uint8_t *bits) {
    struct osmo_conv_code code = code_of(n);
    // 63 and not 127: at 127 its sums of 16 bits reach their bound in long clean stretches, and ties come out otherwise.
    int8_t strengths[KW_FRAME];
    for (size_t i = 0; i < 2 * (n + 6); i++) strengths[i] = (int8_t)(63 - 126 * heard[i]);
    osmo_conv_decode(&code, strengths, bits);
}

void table_inner_encode(const uint8_t *bytes, size_t n, uint8_t *out) {
    unsigned state = 0;
    for (size_t i = 0; i < n; i++) {  // the code is linear: a byte's part and the state's part are added
        uint64_t both[2] = {byte_out[bytes[i]][0] ^ state_out[state][0], byte_out[bytes[i]][1] ^ state_out[state][1]};
        memcpy(out + 16 * i, both, 16);
        state = state_after[bytes[i]];
    }
    memcpy(out + 16 * n, state_out[state], 12);
}

static uint16_t check_of(const uint8_t *payload) {
    unsigned c = 65535;
    for (int i = 0; i < KW_PAYLOAD; i++) c = (c << 8 & 0xffff) ^ checks[c >> 8 ^ payload[i]];
    return (uint16_t)c;
}

void sent_word(const uint8_t *payload, uint8_t *word) {
    uint8_t message[KW_MESSAGE];
    uint16_t c = check_of(payload);
    memcpy(message, payload, KW_PAYLOAD);
    message[221] = (uint8_t)(c >> 8);
    message[222] = (uint8_t)c;
    fec_encode(message, word);
    for (int i = 0; i < KW_WORD; i++) word[i] ^= pattern[i];
}

void osmo_send(const uint8_t *payload, uint8_t *bits) {
    uint8_t word[KW_WORD], plain[KW_WORD_BITS];
    sent_word(payload, word);
    unpack(word, KW_WORD, plain);
    osmo_inner_encode(plain, KW_WORD_BITS, bits);
}

void table_send(const uint8_t *payload, uint8_t *bits) {
    uint8_t word[KW_WORD];
    sent_word(payload, word);
    table_inner_encode(word, KW_WORD, bits);
}

static int payload_of(uint8_t *word, uint8_t *payload) {
    for (int i = 0; i < KW_WORD; i++) word[i] ^= pattern[i];
    int changed = fec_repair(word);
    uint16_t c = check_of(word);
    if (changed < 0 || changed > 16 || word[221] != c >> 8 || word[222] != (c & 255)) {
        memset(payload, 0, KW_PAYLOAD);
        return 0;
    }
    memcpy(payload, word, KW_PAYLOAD);
    return 1;
}

// Eight bits to a byte by one multiplication (little-endian machines).
static void pack_fast(const uint8_t *bits, size_t n, uint8_t *bytes) {
    for (size_t i = 0; i < n; i++) {
        uint64_t eight;
        memcpy(&eight, bits + 8 * i, 8);
        bytes[i] = (uint8_t)(eight * 0x8040201008040201 >> 56);
    }
}

int osmo_hear(const uint8_t *bits, uint8_t *payload) {
    uint8_t plain[KW_WORD_BITS], word[KW_WORD];
    osmo_inner_decode(bits, KW_WORD_BITS, plain);
    pack_fast(plain, KW_WORD, word);
    return payload_of(word, payload);
}

int fec_hear(const uint8_t *bits, uint8_t *payload) {
    uint8_t word[KW_WORD];
    fec_inner_decode(bits, KW_WORD_BITS, word);
    return payload_of(word, payload);
}
