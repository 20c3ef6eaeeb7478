// The rules of the link once more, in plain C (reference.h).
#include "reference.h"

uint8_t product(uint8_t a, uint8_t b) {
    uint8_t sum = 0;
    for (; b; b >>= 1) {
        if (b & 1) sum ^= a;
        a = (uint8_t)(a << 1) ^ (a & 128 ? 29 : 0);
    }
    return sum;
}

bool is_code_word(const uint8_t *word) {
    static uint8_t times[32][256];  // times[j][a]: a times 2^(j + 1)
    static bool made;
    if (!made) {
        uint8_t root = 1;
        for (int j = 0; j < 32; j++) {
            root = product(root, 2);
            for (int a = 0; a < 256; a++) times[j][a] = product((uint8_t)a, root);
        }
        made = true;
    }
    uint8_t values[32] = {0};  // Horner at all roots
    for (int i = 0; i < KW_WORD; i++)
        for (int j = 0; j < 32; j++) values[j] = times[j][values[j]] ^ word[i];
    uint8_t any = 0;
    for (int j = 0; j < 32; j++) any |= values[j];
    return any == 0;
}

void reference_encode(const uint8_t *message, uint8_t *word) {
    uint8_t generator[33] = {1}, root = 1;  // highest coefficient first
    for (int j = 1; j <= 32; j++) {
        root = product(root, 2);
        for (int i = j; i > 0; i--) generator[i] ^= product(generator[i - 1], root);
    }
    uint8_t rest[KW_WORD] = {0};
    memcpy(rest, message, KW_MESSAGE);
    for (int i = 0; i < KW_MESSAGE; i++) {
        uint8_t head = rest[i];
        for (int j = 0; j <= 32; j++) rest[i + j] ^= product(head, generator[j]);
    }
    memcpy(word, message, KW_MESSAGE);
    memcpy(word + KW_MESSAGE, rest + KW_MESSAGE, 32);
}

uint16_t reference_check(const uint8_t *bytes, size_t n) {
    uint32_t c = 65535;
    for (size_t i = 0; i < n; i++) {
        c ^= 256u * bytes[i];
        for (int k = 0; k < 8; k++) c = c < 32768 ? 2 * c : (2 * c % 65536) ^ 4129;
    }
    return (uint16_t)c;
}

void reference_pattern(uint8_t *bits, size_t n) {
    unsigned r = 255;
    for (size_t i = 0; i < n; i++) {
        bits[i] ^= r % 2;
        r = r / 2 + ((r + r / 8 + r / 32 + r / 128) % 2 ? 128 : 0);
    }
}

static uint8_t parity(unsigned x) { return (uint8_t)__builtin_parity(x); }

void reference_inner_encode(const uint8_t *bits, size_t n, uint8_t *out) {
    unsigned state = 0;  // newest bit counts 32
    for (size_t i = 0; i < n + 6; i++) {
        unsigned window = (i < n ? 64u * bits[i] : 0) + state;
        out[2 * i] = parity(window & 121);
        out[2 * i + 1] = parity(window & 91);
        state = window / 2;
    }
}

void reference_send(const uint8_t *payload, uint8_t *bits) {
    uint8_t message[KW_MESSAGE], word[KW_WORD], plain[KW_WORD_BITS];
    uint16_t c = reference_check(payload, KW_PAYLOAD);
    memcpy(message, payload, KW_PAYLOAD);
    message[221] = (uint8_t)(c >> 8);
    message[222] = (uint8_t)c;
    reference_encode(message, word);
    unpack(word, KW_WORD, plain);
    reference_pattern(plain, KW_WORD_BITS);
    reference_inner_encode(plain, KW_WORD_BITS, bits);
}

size_t cost_of(const uint8_t *bits, size_t n, const uint8_t *heard) {
    uint8_t coded[KW_FRAME];
    reference_inner_encode(bits, n, coded);
    return distance(coded, heard, 2 * (n + 6));
}

uint32_t plain_decode(const uint8_t *heard, size_t n, uint8_t *bits) {
    static uint8_t from[KW_WORD_BITS + 6][64];  // 1: the way into this state comes from the higher-numbered one
    static uint8_t sent[128];                   // both coded bits of a window, the first counting 2
    static bool made;
    if (!made) {
        for (unsigned w = 0; w < 128; w++) sent[w] = (uint8_t)(2 * parity(w & 121) + parity(w & 91));
        made = true;
    }
    uint32_t costs[2][64], *old = costs[0], *new = costs[1];
    for (int s = 1; s < 64; s++) old[s] = 1u << 30;
    old[0] = 0;
    for (size_t i = 0; i < n + 6; i++) {
        uint32_t price[4];  // of each pair of coded bits
        for (unsigned p = 0; p < 4; p++) price[p] = (uint32_t)((p >> 1 != heard[2 * i]) + ((p & 1) != heard[2 * i + 1]));
        for (unsigned s = 0; s < 64; s++) {
            uint32_t low = old[2 * s % 64] + price[sent[2 * s]];
            uint32_t high = old[2 * s % 64 + 1] + price[sent[2 * s + 1]];
            from[i][s] = high < low;
            new[s] = high < low ? high : low;
        }
        uint32_t *other = old;
        old = new;
        new = other;
    }
    unsigned state = 0;
    for (size_t i = n + 6; i-- > 0;) {
        if (i < n) bits[i] = (uint8_t)(state >> 5);
        state = 2 * state % 64 + from[i][state];
    }
    return old[0];
}

void unpack(const uint8_t *bytes, size_t n, uint8_t *bits) {
    for (size_t i = 0; i < 8 * n; i++) bits[i] = bytes[i / 8] >> (7 - i % 8) & 1;
}

void pack(const uint8_t *bits, size_t n, uint8_t *bytes) {
    for (size_t i = 0; i < n; i++) {
        bytes[i] = 0;
        for (size_t k = 0; k < 8; k++) bytes[i] |= (uint8_t)(bits[8 * i + k] << (7 - k));
    }
}
