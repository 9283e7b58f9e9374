/* MIDI 1.0 bytes to packets, all in one call: two notes, the second under running status with a clock in
 * its middle, and an exclusive. Each line has the offset of a byte and the words that it completed. */
#include "larboardyuzu.h"

#include <stdio.h>

enum {
    ROOM = 1024,
    OUTCOMES = 16
};

int main(void)
{
    static const uint8_t bytes[] = {
        0x90, 0x3C, 0x64,                      /* Note On */
        0x3E, 0xF8, 0x64,                      /* another, and a clock */
        0xF0, 1,    2,    3, 4, 5, 6, 7, 0xF7, /* an exclusive */
    };
    static uint32_t words[2 * LARBOARDYUZU_UP_SIZE(ROOM)];
    static larboardyuzu_outcome outcomes[OUTCOMES];
    larboardyuzu_up up = LARBOARDYUZU_CLOSED;
    larboardyuzu_block block = { 0, 0, 0, 0, 0, 0 };
    uint32_t status = larboardyuzu_up_open(&up, 0, ROOM, 0);

    if (status == LARBOARDYUZU_DONE) {
        status = larboardyuzu_up_bytes(&up, bytes, sizeof bytes, 0, words, sizeof words / sizeof words[0],
                                       outcomes, OUTCOMES, &block);
        for (size_t i = 0, at = 0; i < block.items; at += outcomes[i].written, i++) {
            printf("%lu:", (unsigned long)outcomes[i].offset);
            for (size_t k = 0; k < outcomes[i].written; k++)
                printf(" %08lX", (unsigned long)words[at + k]);
            printf("\n");
        }
    }
    larboardyuzu_up_close(&up);
    if (status != LARBOARDYUZU_DONE)
        fprintf(stderr, "status %lu\n", (unsigned long)status);
    return status == LARBOARDYUZU_DONE ? 0 : 1;
}
