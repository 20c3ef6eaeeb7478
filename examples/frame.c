// Sends a frame, spoils some of its bits, and hears it: the C interface in a page. Built and run by examples/run.
#include <stdio.h>
#include <stdlib.h>
#include <string.h>

#include "../include/katydidwire.h"

int main(void) {
    uint8_t payload[KW_PAYLOAD] = "Battery 81 %, three pictures on board.";
    uint8_t bits[KW_FRAME], heard[KW_PAYLOAD];

    if (kw_send(payload, sizeof payload, bits, sizeof bits) != 0) return 1;
    printf("sent   %s\n", payload);
    printf("bits   ");
    for (int i = 0; i < 40; i++) printf("%d", bits[i]);
    printf(".. (%d in all)\n", KW_FRAME);

    for (int i = 0; i < KW_FRAME; i += 100) bits[i] ^= 1;  // 41 wrong bits
    if (kw_hear(bits, sizeof bits, heard, sizeof heard) != KW_HEARD) return 1;
    printf("heard  %s\n", heard);
    if (memcmp(heard, payload, sizeof payload) != 0) return 1;

    srand(1);
    for (int i = 0; i < KW_FRAME; i++) bits[i] = (uint8_t)(rand() >> 8 & 1);
    printf("noise  answer %u\n", kw_hear(bits, sizeof bits, heard, sizeof heard));
    bits[7] = 2;
    printf("a byte that is no bit: answer %u\n", kw_hear(bits, sizeof bits, heard, sizeof heard));
    return 0;
}
