/* A host's block of packets, by a loop that goes on after every refusal and every full buffer: a Note On of
 * group 0; a control change 96, which is refused; a Note On of group 1 with an attribute, which MIDI 1.0
 * bytes can't carry; the end of an exclusive that never began; and the first word of a packet whose second
 * word comes with the next block. The buffers are small, so that the loop runs several times.
 */
#include "larboardyuzu.h"

#include <stdio.h>

enum {
    ROOM = 1024,
    PIECES = 2
};

static void print(const uint8_t *bytes, const larboardyuzu_piece *piece)
{
    if (piece->written > 0)
        printf("group %u:", (unsigned)piece->lane);
    for (size_t i = 0; i < piece->written; i++)
        printf(" %02X", (unsigned)bytes[i]);
    if (piece->written > 0)
        printf("\n");
    if (piece->kind != LARBOARDYUZU_NO_LINE)
        printf("offset %lu, group %u: kind %u\n", (unsigned long)piece->offset, (unsigned)piece->group,
               (unsigned)piece->kind);
}

static void print_status(const char *what, uint32_t status, size_t at)
{
    uint8_t name[LARBOARDYUZU_MOST_NAME];
    size_t length = 0;

    larboardyuzu_status_name(status, name, sizeof name, &length);
    printf("word %lu: %s, %.*s\n", (unsigned long)at, what, (int)length, (const char *)name);
}

/* Takes a block, and returns how many words were taken: the rest is passed again with the next one. */
static size_t take_block(larboardyuzu_down *down, const uint32_t *words, size_t count, uint64_t offset)
{
    static uint8_t bytes[LARBOARDYUZU_DOWN_SIZE(ROOM)];
    static larboardyuzu_piece pieces[PIECES];
    larboardyuzu_block block = { 0, 0, 0, 0, 0, 0 };
    uint32_t status;
    size_t at = 0;

    do {
        status = larboardyuzu_down_packets(down, words + at, count - at, offset + 4 * at, bytes,
                                           sizeof bytes, pieces, PIECES, &block);
        for (size_t i = 0, begin = 0; i < block.items; begin += pieces[i].written, i++)
            print(bytes + begin, &pieces[i]);
        at += block.taken;
        if (block.refused > 0)
            print_status("refused", status, at - block.refused);
    } while (status != LARBOARDYUZU_DONE && block.taken > 0);
    if (status != LARBOARDYUZU_DONE)
        print_status("left for the next block", status, at);
    return at;
}

int main(void)
{
    static const uint32_t words[] = {
        0x40903C00, 0xC9240000, /* Note On */
        0x20B06001,             /* control change 96, data increment */
        0x41904001, 0xC9240007, /* Note On with an attribute */
        0x30310700, 0x00000000, /* the end of an exclusive */
        0x40803C00, 0x00000000, /* Note Off, of which the first block has one word */
    };
    larboardyuzu_down down = LARBOARDYUZU_CLOSED;
    uint32_t status = larboardyuzu_down_open(&down, ROOM, 0);

    if (status == LARBOARDYUZU_DONE) {
        size_t at = take_block(&down, words, 8, 0);
        take_block(&down, words + at, 9 - at, 4 * at);
    }
    larboardyuzu_down_close(&down);
    if (status != LARBOARDYUZU_DONE)
        fprintf(stderr, "status %lu\n", (unsigned long)status);
    return status == LARBOARDYUZU_DONE ? 0 : 1;
}
