// The outer code against libfec: answers on COUNT random words (100000), then times.
#include "peers.h"
#include "reference.h"

enum { INPUTS = 128 };

// A code word of a random message, and what a line made of it.
typedef struct {
    uint8_t message[KW_MESSAGE], word[KW_WORD], heard[KW_WORD];
    unsigned wrong;  // at how many bytes heard differs from word
} Case;

// Every sixteenth word lies 17 bytes from its code word and 16 from another one; every 64th is noise.
static void make(Case *c, uint64_t *seed, unsigned long at) {
    draw_bytes(seed, c->message, KW_MESSAGE);
    reference_encode(c->message, c->word);
    memcpy(c->heard, c->word, KW_WORD);
    if (at % 64 == 7) {
        draw_bytes(seed, c->heard, KW_WORD);
    } else if (at % 16 == 0) {
        uint8_t one[KW_MESSAGE] = {0}, light[KW_WORD];  // a code word with 33 bytes that are not zero
        unsigned left = 17;
        one[below(seed, KW_MESSAGE)] = (uint8_t)(1 + below(seed, 255));
        reference_encode(one, light);
        for (int i = 0; i < KW_WORD && left; i++)
            if (light[i]) c->heard[i] ^= light[i], left--;
    } else {
        spoil_bytes(seed, c->heard, below(seed, 41));
    }
    c->wrong = (unsigned)distance(c->heard, c->word, KW_WORD);
}

static unsigned long both, neither, beyond, false_repairs, only_ours, others;

static void compare(const Case *c, unsigned long at) {
    uint8_t word[KW_WORD], ours[KW_WORD], theirs[KW_WORD];
    check(kw_encode(c->message, KW_MESSAGE, word, KW_WORD) == 0 && !memcmp(word, c->word, KW_WORD), "encode differs from the rules", at);
    fec_encode(c->message, word);
    check(!memcmp(word, c->word, KW_WORD), "libfec's encode differs from the rules", at);

    memcpy(ours, c->heard, KW_WORD);
    memcpy(theirs, c->heard, KW_WORD);
    uint32_t changed = 99, answer = kw_repair(ours, KW_WORD, &changed);
    int fec = fec_repair(theirs);
    bool fec_right = fec >= 0 && fec <= 16 && is_code_word(theirs) && (int)distance(theirs, c->heard, KW_WORD) == fec;

    if (answer == 1) {  // sound: a code word, at as many places as it says
        check(is_code_word(ours), "repaired to no code word", at);
        check(changed <= 16 && distance(ours, c->heard, KW_WORD) == changed, "wrong count of bytes changed", at);
    } else {
        check(answer == 0, "an answer that is neither 0 nor 1", at);
        check(!memcmp(ours, c->heard, KW_WORD), "not repaired, and changed", at);
    }
    if (c->wrong <= 16) check(answer == 1 && !memcmp(ours, c->word, KW_WORD), "16 or fewer wrong, not repaired", at);
    if (fec_right) check(answer == 1 && (int)changed == fec && !memcmp(ours, theirs, KW_WORD), "libfec repairs it, ours differs", at);

    if (fec_right) both += answer == 1;
    else if (answer == 1) only_ours++;
    else if (fec > 16) beyond++;
    else if (fec >= 0) false_repairs++;
    else neither++;
    others += answer == 1 && memcmp(ours, c->word, KW_WORD) != 0;
}

static Case cases[INPUTS];
static uint8_t scratch[KW_WORD];
static volatile uint32_t sink;

static void ours_encode(unsigned i) { sink = kw_encode(cases[i].message, KW_MESSAGE, scratch, KW_WORD); }
static void theirs_encode(unsigned i) { fec_encode(cases[i].message, scratch); }
static void ours_repair(unsigned i) {
    uint32_t changed;
    memcpy(scratch, cases[i].heard, KW_WORD);
    sink = kw_repair(scratch, KW_WORD, &changed);
}
static void theirs_repair(unsigned i) {
    memcpy(scratch, cases[i].heard, KW_WORD);
    sink = (uint32_t)fec_repair(scratch);
}

static void times(uint64_t *seed, unsigned rounds) {
    static const unsigned wrong[] = {0, 8, 16, 17};
    printf("| outer code | ours us | libfec us | times as fast, best (median) |\n|---|---|---|---|\n");
    for (int i = 0; i < INPUTS; i++) make(&cases[i], seed, 1);
    Racer encoders[] = {{"ours", ours_encode, 0, 0}, {"libfec", theirs_encode, 0, 0}};
    race(encoders, 2, INPUTS, rounds);
    print_race("encode", encoders, 2);
    for (int k = 0; k < 4; k++) {
        char what[40];
        for (int i = 0; i < INPUTS; i++) {
            memcpy(cases[i].heard, cases[i].word, KW_WORD);
            spoil_bytes(seed, cases[i].heard, wrong[k]);
        }
        Racer repairers[] = {{"ours", ours_repair, 0, 0}, {"libfec", theirs_repair, 0, 0}};
        race(repairers, 2, INPUTS, rounds);
        snprintf(what, sizeof what, "repair, %u wrong", wrong[k]);
        print_race(what, repairers, 2);
    }
}

int main(int argc, char **argv) {
    unsigned long count = argc > 1 ? strtoul(argv[1], NULL, 10) : 100000;
    unsigned rounds = argc > 2 ? (unsigned)atoi(argv[2]) : 50;
    uint64_t seed = 3;
    peers_open();
    for (unsigned long at = 0; at < count; at++) {
        Case c;
        make(&c, &seed, at);
        compare(&c, at);
    }
    printf("%lu words: both repair, alike %lu; neither %lu; libfec changes more than 16 bytes, ours refuses %lu;\n"
           "libfec makes no code word %lu; only ours repairs %lu; repaired to another code word than the one sent %lu\n",
           count, both, neither, beyond, false_repairs, only_ours, others);
    if (rounds) times(&seed, rounds);
    return finish("outer");
}
