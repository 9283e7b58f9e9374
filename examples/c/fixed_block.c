/* A program without malloc: the library's memory is the fixed block of own_heap.c. It opens a translator each
 * way and takes a note down and up again, which requests no memory. */
#include "larboardyuzu.h"
#include "own_heap.h"

#include <stdio.h>

enum {
    ROOM = 256
};

int main(void)
{
    static const uint32_t note[] = { 0x40903C00, 0xC9240000 };
    static uint8_t bytes[LARBOARDYUZU_DOWN_SIZE(ROOM)];
    static uint32_t words[LARBOARDYUZU_UP_SIZE(ROOM)];
    larboardyuzu_down down = LARBOARDYUZU_CLOSED;
    larboardyuzu_up up = LARBOARDYUZU_CLOSED;
    larboardyuzu_piece piece = { 0, 0, 0, 0, 0, 0 };
    larboardyuzu_outcome outcome = { 0, 0, 0, { 0, 0 }, { 0, 0 } };
    size_t before;
    bool is_same = false;

    if (larboardyuzu_down_open(&down, ROOM, 0) != LARBOARDYUZU_DONE
        || larboardyuzu_up_open(&up, 0, ROOM, 0) != LARBOARDYUZU_DONE)
        return 1;
    before = own_heap_requests();
    if (larboardyuzu_down_packet(&down, note, 2, 0, bytes, sizeof bytes, &piece) != LARBOARDYUZU_DONE)
        return 1;
    for (size_t i = 0; i < piece.written; i++) {
        if (larboardyuzu_up_byte(&up, bytes[i], i, words, LARBOARDYUZU_UP_SIZE(ROOM), &outcome)
            != LARBOARDYUZU_DONE)
            return 1;
        is_same = outcome.written == 2 && words[0] == note[0] && words[1] == note[1];
    }
    printf("the note is %s, with %lu requests for memory\n", is_same ? "the same" : "another",
           (unsigned long)(own_heap_requests() - before));
    larboardyuzu_down_close(&down);
    larboardyuzu_up_close(&up);
    printf("%lu bytes are left\n", (unsigned long)own_heap_used());
    return is_same && own_heap_used() == 0 ? 0 : 1;
}
