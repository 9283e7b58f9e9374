/* sysex8. */
#include "program.h"

#include <stdlib.h>

enum {
    PARTS = 100
};

static larboardyuzu_sysex8 sysex8 = LARBOARDYUZU_CLOSED;
static uint8_t *buffer;
static size_t buffer_size;

static void say(uint64_t offset, unsigned group, const char *what)
{
    fprintf(stderr, "%llu %u %s\n", (unsigned long long)offset, group, what);
}

static void say_whole(uint64_t offset, const larboardyuzu_part *part)
{
    fprintf(stderr, "%llu %u sysex8 %u %lu\n", (unsigned long long)offset, (unsigned)part->group,
            (unsigned)part->stream, (unsigned long)part->written);
}

static void put_part(uint64_t offset, uint32_t first, const larboardyuzu_part *part, const uint8_t *at)
{
    switch (part->answer) {
    case LARBOARDYUZU_JOINED_OTHER:
        if (first >> 28 == 5)
            say(offset, first >> 24 & 15, "other-data8");
        break;
    case LARBOARDYUZU_JOINED_HELD:
        break;
    case LARBOARDYUZU_JOINED_WHOLE:
        add_bytes(&lanes[part->group], at, part->written);
        say_whole(offset, part);
        break;
    case LARBOARDYUZU_JOINED_STRAY:
        say(offset, part->group, "stray-sysex8");
        break;
    case LARBOARDYUZU_JOINED_RESTARTED:
        say(part->cut_at, part->group, "cut-sysex8");
        break;
    case LARBOARDYUZU_JOINED_RESTARTED_WHOLE:
        add_bytes(&lanes[part->group], at, part->written);
        say(part->cut_at, part->group, "cut-sysex8");
        say_whole(offset, part);
        break;
    case LARBOARDYUZU_JOINED_FULL:
        say(offset, part->group, "full-sysex8");
        break;
    default:
        must(false, "no such answer");
    }
}

/* The join takes no other packets, so that it doesn't refuse any: what the program refuses, the line of a
 * packet does. */
static uint32_t status_of_other(const uint32_t *words, size_t count, uint64_t offset)
{
    uint8_t text[256];
    size_t length;
    return larboardyuzu_packet_line(words, count, offset, text, sizeof text, &length);
}

/* A call for each packet: how many words are taken, and the status of the packet after them. */
static size_t take_each(const recording *input, uint32_t *status)
{
    size_t at = 0;

    *status = LARBOARDYUZU_DONE;
    while (at < input->count) {
        size_t count = larboardyuzu_words_in_packet(input->words[at]);
        larboardyuzu_part part;
        if (count > input->count - at)
            break;
        *status = larboardyuzu_sysex8_packet(&sysex8, input->words + at, count, 4 * at, buffer, buffer_size,
                                             &part);
        if (*status == LARBOARDYUZU_DONE)
            *status = status_of_other(input->words + at, count, 4 * at);
        if (*status != LARBOARDYUZU_DONE)
            break;
        put_part(4 * at, input->words[at], &part, buffer);
        at += count;
    }
    return at;
}

/* Block calls. */
static size_t take_many(const recording *input, uint32_t *status)
{
    static larboardyuzu_part parts[PARTS];
    size_t at = 0;

    for (;;) {
        larboardyuzu_block block;
        size_t written = 0, packet = at;
        *status = larboardyuzu_sysex8_packets(&sysex8, input->words + at, input->count - at, 4 * at, buffer,
                                              buffer_size, parts, PARTS, &block);
        for (size_t i = 0; i < block.items; i++) {
            size_t count = larboardyuzu_words_in_packet(input->words[packet]);
            uint32_t other = status_of_other(input->words + packet, count, 4 * packet);
            if (other != LARBOARDYUZU_DONE) {
                *status = other;
                return packet;
            }
            put_part(4 * packet, input->words[packet], &parts[i], buffer + written);
            written += parts[i].written;
            packet += count;
        }
        must(written == block.written, "the parts don't have the bytes");
        at += block.taken;
        if (!goes_on(*status, &block))
            return at - block.refused;
    }
}

int run_sysex8(const options *given)
{
    recording input = read_recording(given->is_little);
    uint32_t status;
    size_t at;
    int code = 0;

    buffer_size = given->room + (given->is_single ? 0u : 1000u);
    buffer = malloc(buffer_size);
    must(buffer != NULL, "no memory");
    must(larboardyuzu_sysex8_open(&sysex8, given->streams, given->room) == LARBOARDYUZU_DONE, "not opened");
    at = given->is_single ? take_each(&input, &status) : take_many(&input, &status);
    if (status != LARBOARDYUZU_DONE && status != LARBOARDYUZU_BAD_WORD_COUNT) {
        code = refused(status, 4 * at);
    } else if (4 * at < input.size) {
        code = refused_input(4 * at);
    } else {
        for (unsigned stream = 0; stream < 16 * 256; stream++) {
            uint64_t offset;
            if (larboardyuzu_sysex8_begun(&sysex8, (uint8_t)(stream / 256), (uint8_t)(stream % 256),
                                          &offset)
                == LARBOARDYUZU_DONE)
                say(offset, stream / 256, "open-sysex8");
        }
    }
    larboardyuzu_sysex8_close(&sysex8);
    write_lanes(given->folder);
    free(buffer);
    free(input.words);
    return code;
}
