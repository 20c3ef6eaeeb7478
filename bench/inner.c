// The inner code against libfec, libosmocore and a plain decoder: COUNT frames of each kind (20000), then times.
#include "peers.h"
#include "reference.h"

enum { INPUTS = 20, KINDS = 5, NOISE = 4 };
static const unsigned wrong[KINDS] = {0, 4, 60, 400, 0};
static const char *const kinds[KINDS] = {"0 wrong", "4 wrong", "60 wrong", "400 wrong", "noise"};

static void make(uint64_t *seed, unsigned kind, uint8_t *bits, uint8_t *heard) {
    draw_bits(seed, bits, KW_WORD_BITS);
    reference_inner_encode(bits, KW_WORD_BITS, heard);
    if (kind == NOISE) draw_bits(seed, heard, KW_FRAME);
    else spoil_bits(seed, heard, KW_FRAME, wrong[kind]);
}

// Our way never costs more than theirs; where the bits differ, both cost the same. Answers whether the bits differ.
static bool against(const uint8_t *ours, size_t cost, const uint8_t *theirs, const uint8_t *heard, unsigned long at) {
    if (!memcmp(ours, theirs, KW_WORD_BITS)) return false;
    size_t other = cost_of(theirs, KW_WORD_BITS, heard);
    check(cost <= other, "our way costs more", at);
    check(cost == other, "the bits differ, and so do the costs", at);
    return true;
}

static unsigned long fec_differs[KINDS], osmo_differs[KINDS];

static void compare(uint64_t *seed, unsigned kind, unsigned long at) {
    uint8_t bits[KW_WORD_BITS], heard[KW_FRAME], coded[KW_FRAME], rules[KW_FRAME];
    uint8_t ours[KW_WORD_BITS], theirs[KW_WORD_BITS], bytes[KW_WORD];
    make(seed, kind, bits, heard);

    reference_inner_encode(bits, KW_WORD_BITS, rules);
    check(kw_inner_encode(bits, KW_WORD_BITS, coded, KW_FRAME) == 0 && !memcmp(coded, rules, KW_FRAME), "encode differs from the rules", at);
    osmo_inner_encode(bits, KW_WORD_BITS, coded);
    check(!memcmp(coded, rules, KW_FRAME), "libosmocore's encode differs from the rules", at);

    uint32_t cost = 0;
    check(kw_inner_decode(heard, KW_FRAME, ours, KW_WORD_BITS, &cost) == 0, "decode does not answer 0", at);
    check(cost_of(ours, KW_WORD_BITS, heard) == cost, "the cost is not that of the way", at);
    if (kind != NOISE) check(cost <= wrong[kind], "a way dearer than the one sent", at);
    if (kind <= 1) check(!memcmp(ours, bits, KW_WORD_BITS), "four wrong bits, and not the bits sent", at);

    uint32_t plain = plain_decode(heard, KW_WORD_BITS, theirs);
    check(cost == plain && !memcmp(ours, theirs, KW_WORD_BITS), "differs from the plain decoder, which has our rule for ties", at);
    fec_inner_decode(heard, KW_WORD_BITS, bytes);
    unpack(bytes, KW_WORD, theirs);
    fec_differs[kind] += against(ours, cost, theirs, heard, at);
    osmo_inner_decode(heard, KW_WORD_BITS, theirs);
    osmo_differs[kind] += against(ours, cost, theirs, heard, at);
}

static uint8_t inputs[INPUTS][KW_FRAME], plain_bits[INPUTS][KW_WORD_BITS], scratch[KW_FRAME];
static volatile uint32_t sink;

static void ours(unsigned i) {
    uint32_t cost;
    kw_inner_decode(inputs[i], KW_FRAME, scratch, KW_WORD_BITS, &cost);
    sink = cost;
}
static void by_fec(unsigned i) { fec_inner_decode(inputs[i], KW_WORD_BITS, scratch); }
static void by_osmo(unsigned i) { osmo_inner_decode(inputs[i], KW_WORD_BITS, scratch); }
static void plainly(unsigned i) { sink = plain_decode(inputs[i], KW_WORD_BITS, scratch); }
static void ours_encode(unsigned i) { sink = kw_inner_encode(plain_bits[i], KW_WORD_BITS, scratch, KW_FRAME); }
static void osmo_encode(unsigned i) { osmo_inner_encode(plain_bits[i], KW_WORD_BITS, scratch); }

static void times(uint64_t *seed, unsigned rounds) {
    printf("| inner code | ours us | libfec us | times as fast, best (median) | libosmocore us | times | plain C us | times |\n"
           "|---|---|---|---|---|---|---|---|\n");
    for (unsigned kind = 0; kind < KINDS; kind++) {
        char what[40];
        for (int i = 0; i < INPUTS; i++) make(seed, kind, plain_bits[i], inputs[i]);
        Racer decoders[] = {{"ours", ours, 0, 0}, {"libfec", by_fec, 0, 0}, {"libosmocore", by_osmo, 0, 0}, {"plain C", plainly, 0, 0}};
        race(decoders, 4, INPUTS, rounds);
        snprintf(what, sizeof what, "decode, %s", kinds[kind]);
        print_race(what, decoders, 4);
    }
    Racer encoders[] = {{"ours", ours_encode, 0, 0}, {"libosmocore", osmo_encode, 0, 0}};
    race(encoders, 2, INPUTS, rounds);
    printf("\n| inner code | ours us | libosmocore us | times as fast, best (median) |\n|---|---|---|---|\n");
    print_race("encode", encoders, 2);
}

int main(int argc, char **argv) {
    unsigned long count = argc > 1 ? strtoul(argv[1], NULL, 10) : 20000;
    unsigned rounds = argc > 2 ? (unsigned)atoi(argv[2]) : 40;
    uint64_t seed = 4;
    peers_open();
    for (unsigned kind = 0; kind < KINDS; kind++) {
        for (unsigned long at = 0; at < count; at++) compare(&seed, kind, at);
        printf("%lu frames, %s: other bits of the same cost at libfec %lu, at libosmocore %lu\n", count, kinds[kind], fec_differs[kind],
               osmo_differs[kind]);
    }
    if (rounds) times(&seed, rounds);
    return finish("inner");
}
