// Garbage into the C interface: COUNT calls (1000000), each buffer ending at (or beginning behind) a page that faults.
// `garbage COUNT heap` takes each buffer from malloc instead, for valgrind. Every answer is held to the rules.
#define _GNU_SOURCE
#include <sys/mman.h>
#include <unistd.h>

#include "common.h"
#include "reference.h"

enum { ROOM = 3 * 4096, FILL = 0xa5 };

static bool from_heap;
static uint64_t seed = 6;

// A buffer of just `length` bytes, and a copy of what it held before the call.
typedef struct {
    uint8_t *bytes, *before;
    size_t length;
    uint8_t *pages;  // a page that faults, ROOM bytes, a page that faults
} Buffer;

static void open_buffer(Buffer *b) {
    size_t page = (size_t)sysconf(_SC_PAGESIZE);
    b->before = malloc(ROOM);
    b->pages = mmap(NULL, ROOM + 2 * page, PROT_READ | PROT_WRITE, MAP_PRIVATE | MAP_ANONYMOUS, -1, 0);
    if (!b->before || b->pages == MAP_FAILED || ROOM % page) exit(2);
    if (mprotect(b->pages, page, PROT_NONE) || mprotect(b->pages + page + ROOM, page, PROT_NONE)) exit(2);
    b->pages += page;
}

static void lend(Buffer *b, size_t length) {
    b->length = length;
    if (from_heap) b->bytes = malloc(length);
    else b->bytes = below(&seed, 4) ? b->pages + ROOM - length : b->pages;
    if (!b->bytes) exit(2);
    memset(b->bytes, FILL, length);
}

static void remember(Buffer *b) { memcpy(b->before, b->bytes, b->length); }
static bool kept(const Buffer *b) { return !memcmp(b->bytes, b->before, b->length); }
static void give_back(Buffer *b) {
    if (from_heap) free(b->bytes);
}

// Mostly the right length; else one beside it, none, a double one, or any.
static size_t some_length(size_t right) {
    switch (below(&seed, 16)) {
        case 0: return right - 1;
        case 1: return right + 1;
        case 2: return 0;
        case 3: return 2 * right;
        case 4: return below(&seed, ROOM);
        default: return right;
    }
}

// Bytes, bits, bits with one byte above 1 at any place or at the ends, one value throughout.
static void fill_bits(Buffer *b) {
    draw_bits(&seed, b->bytes, b->length);
    switch (below(&seed, 8)) {
        case 0: draw_bytes(&seed, b->bytes, b->length); break;
        case 1: memset(b->bytes, (int)below(&seed, 3), b->length); break;
        case 2: if (b->length) b->bytes[below(&seed, (unsigned)b->length)] = (uint8_t)(2 + below(&seed, 254)); break;
        case 3: if (b->length) b->bytes[b->length - 1] = 2; break;
        case 4: if (b->length) b->bytes[0] = 255; break;
        default: break;
    }
}

// A frame or a word of ours in a third of the cases, more or less spoiled.
static void fill_frame(Buffer *b) {
    fill_bits(b);
    if (b->length != KW_FRAME || below(&seed, 3)) return;
    uint8_t payload[KW_PAYLOAD];
    draw_bytes(&seed, payload, KW_PAYLOAD);
    reference_send(payload, b->bytes);
    spoil_bits(&seed, b->bytes, KW_FRAME, below(&seed, 300));
    if (!below(&seed, 8)) b->bytes[below(&seed, KW_FRAME)] = 2;
}
static void fill_word(Buffer *b) {
    if (below(&seed, 8)) draw_bytes(&seed, b->bytes, b->length);
    else memset(b->bytes, (int)below(&seed, 256), b->length);
    if (b->length != KW_WORD || below(&seed, 3)) return;
    uint8_t message[KW_MESSAGE];
    draw_bytes(&seed, message, KW_MESSAGE);
    reference_encode(message, b->bytes);
    spoil_bytes(&seed, b->bytes, below(&seed, 20));
}

static bool are_bits(const Buffer *b) {
    uint8_t most = 0;
    for (size_t i = 0; i < b->length; i++) most = b->bytes[i] > most ? b->bytes[i] : most;
    return most <= 1;
}

static Buffer in, out, number;
static unsigned long answers[6][5], calls;

static void count(unsigned call, uint32_t answer) {
    check(answer <= 4, "an answer that no rule has", calls);
    if (answer <= 4) answers[call][answer]++;
}

static uint32_t value(const Buffer *b) {
    uint32_t v;
    memcpy(&v, b->bytes, sizeof v);
    return v;
}

static void send(void) {
    lend(&in, some_length(KW_PAYLOAD)), lend(&out, some_length(KW_FRAME));
    draw_bytes(&seed, in.bytes, in.length);
    remember(&in), remember(&out);
    uint32_t answer = kw_send(in.bytes, in.length, out.bytes, out.length);
    bool fits = in.length == KW_PAYLOAD && out.length == KW_FRAME;
    check(answer == (fits ? 0 : 4), "send: answer", calls);
    if (answer) check(kept(&out), "send: refused, and changed", calls);
    if (fits && (from_heap || calls % 8 == 0)) {
        uint8_t rules[KW_FRAME];
        reference_send(in.before, rules);
        check(!memcmp(out.bytes, rules, KW_FRAME), "send: bits", calls);
    }
    count(0, answer);
}

static void hear(void) {
    lend(&in, some_length(KW_FRAME)), lend(&out, some_length(KW_PAYLOAD));
    fill_frame(&in);
    remember(&in), remember(&out);
    uint32_t answer = kw_hear(in.bytes, in.length, out.bytes, out.length);
    bool frame = in.length == KW_FRAME && are_bits(&in), room = out.length == KW_PAYLOAD;
    if (frame && room) check(answer <= 1, "hear: answer", calls);
    else check((answer == 2 && !frame) || (answer == 4 && !room), "hear: refusal", calls);
    if (answer > 1) check(kept(&out), "hear: refused, and changed", calls);
    if (answer == 0) check(distance(out.bytes, (uint8_t[KW_PAYLOAD]){0}, KW_PAYLOAD) == 0, "hear: nothing, and not zeros", calls);
    if (answer == 1) {  // the word of what is heard lies within 16 bytes of the decoded one
        uint8_t frame_bits[KW_FRAME], sent[KW_WORD_BITS], decoded[KW_WORD_BITS], a[KW_WORD], b[KW_WORD];
        reference_send(out.bytes, frame_bits);
        plain_decode(frame_bits, KW_WORD_BITS, sent);
        plain_decode(in.before, KW_WORD_BITS, decoded);
        pack(sent, KW_WORD, a), pack(decoded, KW_WORD, b);
        check(distance(a, b, KW_WORD) <= 16, "hear: what is heard lies too far off", calls);
    }
    count(1, answer);
}

static void encode(void) {
    lend(&in, some_length(KW_MESSAGE)), lend(&out, some_length(KW_WORD));
    draw_bytes(&seed, in.bytes, in.length);
    remember(&in), remember(&out);
    uint32_t answer = kw_encode(in.bytes, in.length, out.bytes, out.length);
    bool fits = in.length == KW_MESSAGE && out.length == KW_WORD;
    check(answer == (fits ? 0 : 4), "encode: answer", calls);
    if (answer) check(kept(&out), "encode: refused, and changed", calls);
    else check(is_code_word(out.bytes) && !memcmp(out.bytes, in.before, KW_MESSAGE), "encode: word", calls);
    count(2, answer);
}

static void repair(void) {
    lend(&in, 0), lend(&out, some_length(KW_WORD)), lend(&number, 4);
    fill_word(&out);
    remember(&in), remember(&out), remember(&number);
    uint32_t answer = kw_repair(out.bytes, out.length, (uint32_t *)(void *)number.bytes);
    if (out.length != KW_WORD) check(answer == 4 && kept(&number), "repair: answer", calls);
    else check(answer <= 1, "repair: answer", calls);
    if (answer != 1) check(kept(&out), "repair: not repaired, and changed", calls);
    else {
        size_t changed = distance(out.bytes, out.before, KW_WORD);
        check(changed <= 16 && changed == value(&number), "repair: count", calls);
        check(is_code_word(out.bytes), "repair: no code word", calls);
    }
    if (answer == 0) check(kept(&number) || value(&number) == 0, "repair: none, and a count", calls);
    count(3, answer);
}

static void inner_encode(void) {
    size_t n = below(&seed, 2) ? KW_WORD_BITS : below(&seed, 1000);
    lend(&in, n), lend(&out, some_length(2 * (n + 6)));
    fill_bits(&in);
    remember(&in), remember(&out);
    uint32_t answer = kw_inner_encode(in.bytes, in.length, out.bytes, out.length);
    bool bits = are_bits(&in), fits = out.length == 2 * (n + 6);
    if (bits && fits) check(answer == 0, "inner encode: answer", calls);
    else check((answer == 2 && !bits) || (answer == 4 && !fits), "inner encode: refusal", calls);
    if (answer) check(kept(&out), "inner encode: refused, and changed", calls);
    else {
        uint8_t rules[2 * (KW_WORD_BITS + 6)];
        reference_inner_encode(in.before, n, rules);
        check(!memcmp(out.bytes, rules, out.length), "inner encode: bits", calls);
    }
    count(4, answer);
}

static void inner_decode(void) {
    lend(&in, some_length(KW_FRAME)), lend(&out, some_length(KW_WORD_BITS)), lend(&number, 4);
    fill_frame(&in);
    remember(&in), remember(&out), remember(&number);
    uint32_t answer = kw_inner_decode(in.bytes, in.length, out.bytes, out.length, (uint32_t *)(void *)number.bytes);
    bool bits = are_bits(&in), fits = in.length == KW_FRAME && out.length == KW_WORD_BITS;
    if (bits && fits) check(answer == 0, "inner decode: answer", calls);
    else check((answer == 2 && !bits) || (answer == 4 && !fits), "inner decode: refusal", calls);
    if (answer) check(kept(&out) && kept(&number), "inner decode: refused, and changed", calls);
    else {
        check(are_bits(&out), "inner decode: no bits", calls);
        check(cost_of(out.bytes, KW_WORD_BITS, in.before) == value(&number), "inner decode: cost", calls);
        if (from_heap || calls % 64 == 5) {
            uint8_t plain[KW_WORD_BITS];
            check(plain_decode(in.before, KW_WORD_BITS, plain) == value(&number), "inner decode: not the least cost", calls);
            check(!memcmp(plain, out.bytes, KW_WORD_BITS), "inner decode: bits", calls);
        }
    }
    count(5, answer);
}

int main(int argc, char **argv) {
    static void (*const call[6])(void) = {send, hear, encode, repair, inner_encode, inner_decode};
    static const char *const names[6] = {"send", "hear", "encode", "repair", "inner_encode", "inner_decode"};
    unsigned long total = argc > 1 ? strtoul(argv[1], NULL, 10) : 1000000;
    from_heap = argc > 2 && !strcmp(argv[2], "heap");
    open_buffer(&in), open_buffer(&out), open_buffer(&number);
    for (; calls < total; calls++) {
        unsigned which = below(&seed, 6);
        call[which]();
        check(which == 3 || kept(&in), "what was only lent to read has changed", calls);
        give_back(&in), give_back(&out);
        if (which == 3 || which == 5) give_back(&number);
    }
    printf("| call | 0 | 1 | 2 | 4 |\n|---|---|---|---|---|\n");
    for (int i = 0; i < 6; i++)
        printf("| %s | %lu | %lu | %lu | %lu |\n", names[i], answers[i][0], answers[i][1], answers[i][2], answers[i][4]);
    return finish(from_heap ? "garbage, buffers of malloc" : "garbage, buffers at pages that fault");
}
