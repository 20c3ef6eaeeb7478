/* katydidwire.h: the C interface of the link's codes and frames (archive libcapi.a).
 *
 * Rules for all calls
 *   - Each buffer comes with its length in bytes. A buffer of a length that the call does not take is answered by 4
 *     (KW_WRONG_MEMORY), but for the bits given to kw_hear, which are answered by 2 (KW_NO_FRAME); so is a byte above 1
 *     where bits are read. A call that answers 2 or 4 has changed nothing that was lent to it. Where 2 and 4 both fit,
 *     the answer is 4.
 *   - A bit is a byte that holds 0 or 1. A byte's bits stand highest first.
 *   - A pointer is never NULL and leads to as many bytes as its length says; two buffers of one call do not overlap.
 *   - No call allocates, keeps a pointer, or has state: calls may run in any order, and in several threads at a time.
 *     Leave a thread's stack 512 KB for them.
 */
#ifndef KATYDIDWIRE_H
#define KATYDIDWIRE_H

#include <stddef.h>
#include <stdint.h>

#ifdef __cplusplus
extern "C" {
#endif

enum {
    KW_PAYLOAD = 221,     /* bytes of a payload */
    KW_MESSAGE = 223,     /* bytes that the outer code takes: a payload and its check */
    KW_WORD = 255,        /* bytes of a word of the outer code */
    KW_WORD_BITS = 2040,  /* bits of a word */
    KW_FRAME = 4092       /* bits of a frame: 2 * (2040 + 6) */
};

enum { KW_NOTHING = 0, KW_HEARD = 1, KW_NO_FRAME = 2, KW_WRONG_MEMORY = 4 };

/* Writes the frame of a payload.
 * payload_len is 221, bits_len 4092.
 * Answers 0, and bits holds the frame; 4 at another length. */
uint32_t kw_send(const uint8_t *payload, size_t payload_len, uint8_t *bits, size_t bits_len);

/* Hears a frame: decodes, repairs, and looks at the check.
 * bits_len is 4092, each bit 0 or 1; payload_len is 221.
 * Answers 1: heard, and payload holds it; 0: nothing heard, and payload holds 221 zeros;
 * 2: not just 4092 bits, or a byte among them above 1; 4: payload_len is not 221. */
uint32_t kw_hear(const uint8_t *bits, size_t bits_len, uint8_t *payload, size_t payload_len);

/* Writes the code word of a message (outer code): the message, and 32 bytes behind it.
 * message_len is 223, word_len 255.
 * Answers 0; 4 at another length. */
uint32_t kw_encode(const uint8_t *message, size_t message_len, uint8_t *word, size_t word_len);

/* Repairs a word of the outer code.
 * word_len is 255.
 * Answers 1 if a code word differs from the word at 16 bytes or fewer: word is that code word now, and *changed says
 * at how many bytes (0 to 16) it differed; 0 if there is none: the word is as it was; 4 at another length. */
uint32_t kw_repair(uint8_t *word, size_t word_len, uint32_t *changed);

/* Writes the coded bits of n bits (inner code).
 * out_len is 2 * (n + 6).
 * Answers 0; 2 if a byte of the bits is above 1; 4 if out_len is another. */
uint32_t kw_inner_encode(const uint8_t *bits, size_t n, uint8_t *out, size_t out_len);

/* Decodes heard bits of the inner code: the bits whose coded form differs from those heard at the fewest places; of two
 * ways into one state of equal cost, the one from the lower-numbered state.
 * heard_len is 4092, out_len 2040.
 * Answers 0, and *cost is the number of places; 2 if a byte heard is above 1; 4 at another length. */
uint32_t kw_inner_decode(const uint8_t *heard, size_t heard_len, uint8_t *out, size_t out_len, uint32_t *cost);

#ifdef __cplusplus
}
#endif

#endif
