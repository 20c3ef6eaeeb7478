// Whole frames against chains of libfec's and libosmocore's parts: COUNT frames (100000), then times.
#include "peers.h"
#include "reference.h"

enum { INPUTS = 40 };

// Spoils a frame in one of four ways, in turns: 0 to 400 bits anywhere, 0 to 4 bits, one burst of up to 400 bits,
// or a burst and bits anywhere. Answers at how many bits it did.
static unsigned spoil(uint64_t *seed, uint8_t *bits, unsigned long at) {
    uint8_t before[KW_FRAME];
    memcpy(before, bits, KW_FRAME);
    if (at % 4 >= 2) {
        unsigned length = 1 + below(seed, 400), start = below(seed, KW_FRAME - length + 1);
        draw_bits(seed, bits + start, length);
    }
    if (at % 4 == 0) spoil_bits(seed, bits, KW_FRAME, below(seed, 401));
    if (at % 4 == 1) spoil_bits(seed, bits, KW_FRAME, below(seed, 5));
    if (at % 4 == 3) spoil_bits(seed, bits, KW_FRAME, below(seed, 200));
    return (unsigned)distance(before, bits, KW_FRAME);
}

static unsigned long heard, lost, beyond, ties, foreign;

// At how many bytes the word behind the inner code is wrong.
static size_t bytes_wrong(const uint8_t *payload, const uint8_t *bits) {
    uint8_t decoded[KW_WORD], sent[KW_WORD];
    fec_inner_decode(bits, KW_WORD_BITS, decoded);
    sent_word(payload, sent);
    return distance(decoded, sent, KW_WORD);
}

static void compare(uint64_t *seed, unsigned long at) {
    uint8_t payload[KW_PAYLOAD], frame[KW_FRAME], rules[KW_FRAME], bits[KW_FRAME];
    uint8_t ours[KW_PAYLOAD], theirs[KW_PAYLOAD];
    draw_bytes(seed, payload, KW_PAYLOAD);
    table_send(payload, rules);
    check(kw_send(payload, KW_PAYLOAD, frame, KW_FRAME) == 0 && !memcmp(frame, rules, KW_FRAME), "send differs from the chain", at);
    if (at % 100 == 0) {
        reference_send(payload, rules);
        check(!memcmp(frame, rules, KW_FRAME), "send differs from the rules", at);
        osmo_send(payload, rules);
        check(!memcmp(frame, rules, KW_FRAME), "send differs from the chain with libosmocore", at);
    }
    memcpy(bits, frame, KW_FRAME);
    unsigned wrong = spoil(seed, bits, at);

    memset(ours, 0xaa, KW_PAYLOAD);
    uint32_t answer = kw_hear(bits, KW_FRAME, ours, KW_PAYLOAD);
    check(answer <= 1, "an answer that is neither 0 nor 1", at);
    int fec = fec_hear(bits, theirs);
    check((int)answer == fec && !memcmp(ours, theirs, KW_PAYLOAD), "hear differs from libfec's chain", at);
    int osmo = osmo_hear(bits, theirs);
    if ((int)answer != osmo || memcmp(ours, theirs, KW_PAYLOAD)) {  // only where ties were decided otherwise
        uint8_t a[KW_WORD_BITS], b[KW_WORD_BITS];
        plain_decode(bits, KW_WORD_BITS, a);
        osmo_inner_decode(bits, KW_WORD_BITS, b);
        check(memcmp(a, b, KW_WORD_BITS) && cost_of(a, KW_WORD_BITS, bits) == cost_of(b, KW_WORD_BITS, bits),
              "hear differs from libosmocore's chain, and not by a tie", at);
        ties++;
    }

    bool right = answer == 1 && !memcmp(ours, payload, KW_PAYLOAD);
    if (wrong <= 4) check(right, "four wrong bits or fewer, and not heard", at);
    check(right == (bytes_wrong(payload, bits) <= 16), "heard, if and only if 16 bytes or fewer are wrong behind the inner code", at);
    if (right) heard++;
    else if (answer == 1) foreign++;
    else lost++;
    if (wrong > 4 && right) beyond++;
}

// A frame whose word is a code word, but whose check is wrong: nothing is heard.
static void false_check(uint64_t *seed, unsigned long at) {
    uint8_t message[KW_MESSAGE], word[KW_WORD], plain[KW_WORD_BITS], bits[KW_FRAME], ours[KW_PAYLOAD];
    static const uint8_t zeros[KW_PAYLOAD];
    draw_bytes(seed, message, KW_PAYLOAD);
    uint16_t c = reference_check(message, KW_PAYLOAD) ^ (uint16_t)(1 + below(seed, 65535));
    message[221] = (uint8_t)(c >> 8);
    message[222] = (uint8_t)c;
    reference_encode(message, word);
    unpack(word, KW_WORD, plain);
    reference_pattern(plain, KW_WORD_BITS);
    reference_inner_encode(plain, KW_WORD_BITS, bits);
    memset(ours, 0xaa, KW_PAYLOAD);
    check(kw_hear(bits, KW_FRAME, ours, KW_PAYLOAD) == 0 && !memcmp(ours, zeros, KW_PAYLOAD), "heard with a wrong check", at);
}

static uint8_t payloads[INPUTS][KW_PAYLOAD], inputs[INPUTS][KW_FRAME], scratch[KW_FRAME];
static volatile uint32_t sink;

static void ours_send(unsigned i) { sink = kw_send(payloads[i], KW_PAYLOAD, scratch, KW_FRAME); }
static void send_by_table(unsigned i) { table_send(payloads[i], scratch); }
static void send_by_osmo(unsigned i) { osmo_send(payloads[i], scratch); }
static void ours_hear(unsigned i) { sink = kw_hear(inputs[i], KW_FRAME, scratch, KW_PAYLOAD); }
static void hear_by_osmo(unsigned i) { sink = (uint32_t)osmo_hear(inputs[i], scratch); }
static void hear_by_fec(unsigned i) { sink = (uint32_t)fec_hear(inputs[i], scratch); }

static void times(uint64_t *seed, unsigned rounds) {
    static const unsigned wrong[] = {0, 4, 60, 123, 200, 400};
    for (int i = 0; i < INPUTS; i++) draw_bytes(seed, payloads[i], KW_PAYLOAD);
    Racer senders[] = {{"ours", ours_send, 0, 0}, {"libfec, tables", send_by_table, 0, 0}, {"libfec, libosmocore", send_by_osmo, 0, 0}};
    race(senders, 3, INPUTS, rounds);
    printf("| frames | ours us | libfec and a table us | times as fast, best (median) | libfec and libosmocore us | times |\n|---|---|---|---|---|---|\n");
    print_race("send", senders, 3);
    printf("\n| frames | ours us | libosmocore and libfec us | times as fast, best (median) | libfec alone us | times |\n|---|---|---|---|---|---|\n");
    for (unsigned k = 0; k < sizeof wrong / sizeof *wrong; k++) {
        char what[40];
        for (int i = 0; i < INPUTS; i++) {
            reference_send(payloads[i], inputs[i]);
            spoil_bits(seed, inputs[i], KW_FRAME, wrong[k]);
        }
        Racer hearers[] = {{"ours", ours_hear, 0, 0}, {"libosmocore, libfec", hear_by_osmo, 0, 0}, {"libfec", hear_by_fec, 0, 0}};
        race(hearers, 3, INPUTS, rounds);
        snprintf(what, sizeof what, "hear, %u bits wrong", wrong[k]);
        print_race(what, hearers, 3);
    }
}

int main(int argc, char **argv) {
    unsigned long count = argc > 1 ? strtoul(argv[1], NULL, 10) : 100000;
    unsigned rounds = argc > 2 ? (unsigned)atoi(argv[2]) : 60;
    uint64_t seed = 5;
    peers_open();
    for (unsigned long at = 0; at < count; at++) {
        compare(&seed, at);
        if (at % 100 == 0) false_check(&seed, at);
    }
    printf("%lu frames: the payload heard %lu (%lu of them with more than four bits wrong), nothing %lu, another payload %lu;\n"
           "another answer than libosmocore's chain, by a tie %lu\n",
           count, heard, beyond, lost, foreign, ties);
    if (rounds) times(&seed, rounds);
    return finish("frames");
}
