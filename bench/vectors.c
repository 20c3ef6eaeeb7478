// Writes test vectors computed by libfec and libosmocore: `vectors outer|inner|frames`, one case to a line.
// Fields are parted by one space. Bytes are hexadecimal; bits too, four to a digit, the first counting 8.
// Each line is held to the rules in plain C before it is printed.
#include "peers.h"
#include "reference.h"

static uint64_t seed = 7;

static void require(bool good, const char *what) {
    if (good) return;
    fprintf(stderr, "vectors: %s\n", what);
    exit(1);
}

static void print_bytes(const uint8_t *bytes, size_t n) {
    putchar(' ');
    for (size_t i = 0; i < n; i++) printf("%02x", bytes[i]);
}

static void print_bits(const uint8_t *bits, size_t n) {
    putchar(' ');
    for (size_t i = 0; i < n; i += 4) printf("%x", 8u * bits[i] + 4u * bits[i + 1] + 2u * bits[i + 2] + bits[i + 3]);
    if (n == 0) putchar('-');
}

// encode MESSAGE WORD
static void outer_encode(const uint8_t *message) {
    uint8_t word[KW_WORD], rules[KW_WORD];
    fec_encode(message, word);
    reference_encode(message, rules);
    require(!memcmp(word, rules, KW_WORD) && is_code_word(word), "libfec encodes otherwise");
    printf("encode");
    print_bytes(message, KW_MESSAGE);
    print_bytes(word, KW_WORD);
    putchar('\n');
}

// repair WORD ANSWER REPAIRED: the answer is the count of bytes changed, or none and the word as it was.
static void outer_repair(const uint8_t *heard) {
    uint8_t word[KW_WORD];
    memcpy(word, heard, KW_WORD);
    int changed = fec_repair(word);
    bool found = changed >= 0 && changed <= 16;
    if (!found) memcpy(word, heard, KW_WORD);
    else require(is_code_word(word) && (int)distance(word, heard, KW_WORD) == changed, "libfec repairs to no code word");
    printf("repair");
    print_bytes(heard, KW_WORD);
    if (found) printf(" %d", changed);
    else printf(" none");
    print_bytes(word, KW_WORD);
    putchar('\n');
}

static void random_word(uint8_t *word) {
    uint8_t message[KW_MESSAGE];
    draw_bytes(&seed, message, KW_MESSAGE);
    fec_encode(message, word);
}

// Bytes [from, to) wrong.
static void repair_run(unsigned from, unsigned to) {
    uint8_t word[KW_WORD];
    random_word(word);
    for (unsigned i = from; i < to; i++) word[i] ^= (uint8_t)(1 + below(&seed, 255));
    outer_repair(word);
}

static void outer(void) {
    static const unsigned wrong[] = {0, 1, 8, 15, 16, 17, 18, 40};
    uint8_t message[KW_MESSAGE] = {0}, word[KW_WORD];
    printf("# The outer code, computed by libfec. encode MESSAGE WORD; repair WORD ANSWER REPAIRED (ANSWER: bytes changed, or none)\n");
    outer_encode(message);
    memset(message, 255, KW_MESSAGE);
    outer_encode(message);
    for (int i = 0; i < 4; i++) {
        draw_bytes(&seed, message, KW_MESSAGE);
        outer_encode(message);
    }
    for (unsigned k = 0; k < sizeof wrong / sizeof *wrong; k++)
        for (int i = 0; i < 3; i++) {
            random_word(word);
            spoil_bytes(&seed, word, wrong[k]);
            outer_repair(word);
        }
    repair_run(0, 1), repair_run(254, 255);    // the first byte, the last
    repair_run(0, 16), repair_run(239, 255);   // 16 at either end
    repair_run(0, 17), repair_run(238, 255);   // 17 at either end
    repair_run(215, 231);                      // across message and check bytes
    repair_run(0, KW_WORD);                    // all bytes wrong
    random_word(word);                         // 8 at each end
    for (int i = 0; i < 8; i++) word[i] ^= 255, word[254 - i] ^= 1;
    outer_repair(word);
    for (unsigned i = 0; i < KW_WORD; i += 127) {  // one byte that is not zero
        memset(word, 0, KW_WORD);
        word[i] = (uint8_t)(i + 1);
        outer_repair(word);
    }
    for (int nonzero = 17; nonzero >= 16; nonzero--) {  // 17 or 16 bytes of a code word with 33 that are not zero
        uint8_t one[KW_MESSAGE] = {0}, light[KW_WORD];
        int left = nonzero;
        one[100] = 1;
        fec_encode(one, light);
        for (int i = 0; i < KW_WORD; i++)
            if (light[i] && left-- <= 0) light[i] = 0;
        outer_repair(light);
    }
}

// encode BITS CODED
static void inner_encode(const uint8_t *bits, size_t n) {
    uint8_t coded[KW_FRAME], rules[KW_FRAME];
    osmo_inner_encode(bits, n, coded);
    reference_inner_encode(bits, n, rules);
    require(!memcmp(coded, rules, 2 * (n + 6)), "libosmocore encodes otherwise");
    printf("encode");
    print_bits(bits, n);
    print_bits(coded, 2 * (n + 6));
    putchar('\n');
}

// decode HEARD COST BITS, by libfec, whose rule for ties is ours
static void inner_decode(const uint8_t *heard, size_t n) {
    uint8_t bytes[KW_WORD], bits[KW_WORD_BITS], rules[KW_WORD_BITS];
    fec_inner_decode(heard, n, bytes);
    unpack(bytes, n / 8, bits);
    size_t cost = cost_of(bits, n, heard);
    require(plain_decode(heard, n, rules) == cost && !memcmp(bits, rules, n), "libfec decodes otherwise");
    osmo_inner_decode(heard, n, rules);
    require(cost_of(rules, n, heard) == cost, "libosmocore finds another cost");
    printf("decode");
    print_bits(heard, 2 * (n + 6));
    printf(" %zu", cost);
    print_bits(bits, n);
    putchar('\n');
}

static void inner(void) {
    static const size_t lengths[] = {0, 4, 8, 64, KW_WORD_BITS};
    static const unsigned wrong[] = {0, 1, 4, 5, 60, 400};
    uint8_t bits[KW_WORD_BITS] = {0}, heard[KW_FRAME];
    printf("# The inner code, computed by libosmocore (encode) and libfec (decode). encode BITS CODED; decode HEARD COST BITS (-: no bits)\n");
    bits[0] = 1;
    inner_encode(bits, 4);
    for (unsigned k = 0; k < sizeof lengths / sizeof *lengths; k++) {
        draw_bits(&seed, bits, lengths[k]);
        inner_encode(bits, lengths[k]);
    }
    memset(bits, 1, KW_WORD_BITS);
    inner_encode(bits, KW_WORD_BITS);
    for (unsigned k = 0; k < sizeof wrong / sizeof *wrong; k++)
        for (int i = 0; i < 2; i++) {
            draw_bits(&seed, bits, KW_WORD_BITS);
            reference_inner_encode(bits, KW_WORD_BITS, heard);
            spoil_bits(&seed, heard, KW_FRAME, wrong[k]);
            inner_decode(heard, KW_WORD_BITS);
        }
    for (int i = 0; i < 4; i++) {  // noise: many ties
        draw_bits(&seed, heard, KW_FRAME);
        inner_decode(heard, KW_WORD_BITS);
    }
    for (int i = 0; i < 8; i++) {
        draw_bits(&seed, heard, 28);
        inner_decode(heard, 8);
    }
    memset(heard, 0, KW_FRAME);
    inner_decode(heard, KW_WORD_BITS);
    memset(heard, 1, KW_FRAME);
    inner_decode(heard, KW_WORD_BITS);
}

// send PAYLOAD FRAME
static void frame_send(const uint8_t *payload, uint8_t *frame) {
    uint8_t rules[KW_FRAME];
    osmo_send(payload, frame);
    reference_send(payload, rules);
    require(!memcmp(frame, rules, KW_FRAME), "the chain sends otherwise");
    printf("send");
    print_bytes(payload, KW_PAYLOAD);
    print_bits(frame, KW_FRAME);
    putchar('\n');
}

// hear FRAME ANSWER PAYLOAD
static void frame_hear(const uint8_t *frame) {
    uint8_t payload[KW_PAYLOAD];
    int answer = fec_hear(frame, payload);
    printf("hear");
    print_bits(frame, KW_FRAME);
    printf(" %d", answer);
    print_bytes(payload, KW_PAYLOAD);
    putchar('\n');
}

static void frames(void) {
    static const unsigned wrong[] = {0, 1, 4, 40, 120, 200, 240, 280, 400};
    uint8_t payload[KW_PAYLOAD] = {0}, frame[KW_FRAME];
    printf("# Whole frames, computed by libfec and libosmocore. send PAYLOAD FRAME; hear FRAME ANSWER PAYLOAD\n");
    frame_send(payload, frame);
    for (unsigned k = 0; k < sizeof wrong / sizeof *wrong; k++)
        for (int i = 0; i < 2; i++) {
            draw_bytes(&seed, payload, KW_PAYLOAD);
            frame_send(payload, frame);
            spoil_bits(&seed, frame, KW_FRAME, wrong[k]);
            frame_hear(frame);
        }
    for (unsigned length = 40; length <= 320; length += 40) {  // one burst
        draw_bytes(&seed, payload, KW_PAYLOAD);
        osmo_send(payload, frame);
        draw_bits(&seed, frame + 1000, length);
        frame_hear(frame);
    }
    // A code word without its check (zeros throughout): repaired by the outer code, and not heard.
    uint8_t plain[KW_WORD_BITS] = {0};
    reference_pattern(plain, KW_WORD_BITS);
    reference_inner_encode(plain, KW_WORD_BITS, frame);
    frame_hear(frame);
    // The two bytes of a right check swapped.
    uint8_t message[KW_MESSAGE], word[KW_WORD];
    uint16_t c = reference_check(payload, KW_PAYLOAD);
    memcpy(message, payload, KW_PAYLOAD);
    message[221] = (uint8_t)c;
    message[222] = (uint8_t)(c >> 8);
    fec_encode(message, word);
    unpack(word, KW_WORD, plain);
    reference_pattern(plain, KW_WORD_BITS);
    reference_inner_encode(plain, KW_WORD_BITS, frame);
    frame_hear(frame);
    draw_bits(&seed, frame, KW_FRAME);  // noise
    frame_hear(frame);
}

int main(int argc, char **argv) {
    const char *which = argc > 1 ? argv[1] : "";
    peers_open();
    if (!strcmp(which, "outer")) outer();
    else if (!strcmp(which, "inner")) inner();
    else if (!strcmp(which, "frames")) frames();
    else return fprintf(stderr, "usage: vectors outer|inner|frames\n"), 2;
    return 0;
}
