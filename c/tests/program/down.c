/* translate down. */
#include "program.h"

#include <stdlib.h>

enum {
    PIECES = 100
};

static larboardyuzu_down down = LARBOARDYUZU_CLOSED;
static uint8_t *buffer;
static size_t buffer_size;

static void put_piece(const larboardyuzu_piece *piece, const uint8_t *at)
{
    add_bytes(&lanes[piece->lane], at, piece->written);
    if (piece->kind != LARBOARDYUZU_NO_LINE)
        list(piece->offset, piece->group, piece->kind);
}

/* A call for each packet: how many words are taken, and the status of the packet after them. */
static size_t take_each(const recording *input, uint32_t *status)
{
    size_t at = 0;

    *status = LARBOARDYUZU_DONE;
    while (at < input->count) {
        size_t count = larboardyuzu_words_in_packet(input->words[at]);
        larboardyuzu_piece piece;
        if (count > input->count - at)
            break;
        *status =
            larboardyuzu_down_packet(&down, input->words + at, count, 4 * at, buffer, buffer_size, &piece);
        if (*status != LARBOARDYUZU_DONE)
            break;
        put_piece(&piece, buffer);
        at += count;
    }
    return at;
}

/* Block calls. */
static size_t take_many(const recording *input, uint32_t *status)
{
    static larboardyuzu_piece pieces[PIECES];
    size_t at = 0;

    for (;;) {
        larboardyuzu_block block;
        size_t written = 0;
        *status = larboardyuzu_down_packets(&down, input->words + at, input->count - at, 4 * at, buffer,
                                            buffer_size, pieces, PIECES, &block);
        for (size_t i = 0; i < block.items; i++) {
            put_piece(&pieces[i], buffer + written);
            written += pieces[i].written;
        }
        must(written == block.written, "the pieces don't have the bytes");
        at += block.taken;
        if (!goes_on(*status, &block))
            return at - block.refused;
    }
}

int run_down(const options *given)
{
    recording input = read_recording(given->is_little);
    uint32_t status;
    size_t at;
    int code = 0;

    buffer_size = LARBOARDYUZU_DOWN_SIZE((size_t)given->room) + (given->is_single ? 0 : 1000);
    buffer = malloc(buffer_size);
    must(buffer != NULL, "no memory");
    must(larboardyuzu_down_open(&down, given->room,
                                (given->is_compact ? LARBOARDYUZU_COMPACT : 0u)
                                    | (given->is_paired ? LARBOARDYUZU_PAIRED : 0u))
             == LARBOARDYUZU_DONE,
         "not opened");
    at = given->is_single ? take_each(&input, &status) : take_many(&input, &status);
    if (status != LARBOARDYUZU_DONE && status != LARBOARDYUZU_BAD_WORD_COUNT) {
        code = refused(status, 4 * at);
    } else if (4 * at < input.size) {
        code = refused_input(4 * at);
    } else {
        uint64_t offset;
        for (uint8_t group = 0; group < 16; group++)
            if (larboardyuzu_down_begun(&down, group, &offset) == LARBOARDYUZU_DONE)
                list(offset, group, LARBOARDYUZU_OPEN_EXCLUSIVE);
    }
    larboardyuzu_down_close(&down);
    write_lanes(given->folder);
    free(buffer);
    free(input.words);
    return code;
}
