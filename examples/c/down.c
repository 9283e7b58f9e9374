/* One packet to MIDI 1.0 bytes: a Note On in group 0, of velocity 51492 of 65535. */
#include "larboardyuzu.h"

#include <stdio.h>

enum {
    ROOM = 1024
};

int main(void)
{
    static const uint32_t words[] = { 0x40903C00, 0xC9240000 };
    static uint8_t bytes[LARBOARDYUZU_DOWN_SIZE(ROOM)];
    larboardyuzu_down down = LARBOARDYUZU_CLOSED;
    larboardyuzu_piece piece = { 0, 0, 0, 0, 0, 0 };
    uint32_t status = larboardyuzu_down_open(&down, ROOM, 0);

    if (status == LARBOARDYUZU_DONE)
        status = larboardyuzu_down_packet(&down, words, 2, 0, bytes, sizeof bytes, &piece);
    if (status == LARBOARDYUZU_DONE) {
        printf("group %u:", (unsigned)piece.lane);
        for (size_t i = 0; i < piece.written; i++)
            printf(" %02X", (unsigned)bytes[i]);
        printf("\n");
    }
    larboardyuzu_down_close(&down);
    if (status != LARBOARDYUZU_DONE)
        fprintf(stderr, "status %lu\n", (unsigned long)status);
    return status == LARBOARDYUZU_DONE ? 0 : 1;
}
