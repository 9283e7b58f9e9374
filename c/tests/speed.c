/* speed down|up single|block FILE TIMES: translates a recording or a stream so often, writes nothing, and
 * prints the best time for each packet or byte. Under callgrind, --toggle-collect=larboardyuzu_down_packet
 * and so on count the instructions of the calls alone. */
#include "check.h"
#include "larboardyuzu.h"

#include <string.h>
#include <time.h>

enum {
    ROOM = 1048576,
    PIECES = 4096,
    EXTRA = 65536
};

static uint8_t *data;
static size_t size, packets;
static uint32_t *words;
static uint8_t *out;
static uint32_t *out_words;

static void read_file(const char *name)
{
    FILE *file = fopen(name, "rb");
    long length;

    CHECK(file != NULL && fseek(file, 0, SEEK_END) == 0);
    length = ftell(file);
    CHECK(length >= 0 && fseek(file, 0, SEEK_SET) == 0);
    size = (size_t)length;
    data = malloc(size + 4);
    words = malloc(size + 4);
    out = malloc(LARBOARDYUZU_DOWN_SIZE(ROOM) + EXTRA);
    out_words = malloc((LARBOARDYUZU_UP_SIZE(ROOM) + EXTRA) * sizeof out_words[0]);
    CHECK(data != NULL && words != NULL && out != NULL && out_words != NULL);
    CHECK(fread(data, 1, size, file) == size && fclose(file) == 0);
    for (size_t i = 0; i < size / 4; i++)
        words[i] = (uint32_t)data[4 * i] << 24 | (uint32_t)data[4 * i + 1] << 16
                   | (uint32_t)data[4 * i + 2] << 8 | data[4 * i + 3];
}

static void down_single(larboardyuzu_down *down)
{
    larboardyuzu_piece piece;
    packets = 0;
    for (size_t at = 0; at < size / 4; packets++) {
        size_t count = larboardyuzu_words_in_packet(words[at]);
        CHECK(larboardyuzu_down_packet(down, words + at, count, 4 * at, out, LARBOARDYUZU_DOWN_SIZE(ROOM),
                                       &piece)
              == LARBOARDYUZU_DONE);
        at += count;
    }
}

static void down_block(larboardyuzu_down *down)
{
    static larboardyuzu_piece pieces[PIECES];
    larboardyuzu_block block;
    uint32_t status;
    size_t at = 0;

    packets = 0;
    do {
        status = larboardyuzu_down_packets(down, words + at, size / 4 - at, 4 * at, out,
                                           LARBOARDYUZU_DOWN_SIZE(ROOM) + EXTRA, pieces, PIECES, &block);
        at += block.taken;
        packets += block.items;
    } while (status == LARBOARDYUZU_SMALL_BUFFER);
    CHECK(status == LARBOARDYUZU_DONE);
}

static void up_single(larboardyuzu_up *up)
{
    larboardyuzu_outcome outcome;
    packets = size;
    for (size_t at = 0; at < size; at++)
        CHECK(larboardyuzu_up_byte(up, data[at], at, out_words, LARBOARDYUZU_UP_SIZE(ROOM), &outcome)
              == LARBOARDYUZU_DONE);
}

static void up_block(larboardyuzu_up *up)
{
    static larboardyuzu_outcome outcomes[PIECES];
    larboardyuzu_block block;
    uint32_t status;
    size_t at = 0;

    packets = size;
    do {
        status = larboardyuzu_up_bytes(up, data + at, size - at, at, out_words,
                                       LARBOARDYUZU_UP_SIZE(ROOM) + EXTRA, outcomes, PIECES, &block);
        at += block.taken;
    } while (status == LARBOARDYUZU_SMALL_BUFFER);
    CHECK(status == LARBOARDYUZU_DONE);
}

static double seconds(void)
{
    return (double)clock() / CLOCKS_PER_SEC;
}

int main(int count, char **given)
{
    double best = 1e9;
    CHECK(count == 5);
    read_file(given[3]);
    for (long left = strtol(given[4], NULL, 10); left > 0; left--) {
        bool is_down = !strcmp(given[1], "down"), is_single = !strcmp(given[2], "single");
        larboardyuzu_down down = LARBOARDYUZU_CLOSED;
        larboardyuzu_up up = LARBOARDYUZU_CLOSED;
        double begin, time;
        CHECK(larboardyuzu_down_open(&down, ROOM, 0) == LARBOARDYUZU_DONE);
        CHECK(larboardyuzu_up_open(&up, 0, ROOM, 0) == LARBOARDYUZU_DONE);
        begin = seconds();
        if (is_down)
            (is_single ? down_single : down_block)(&down);
        else
            (is_single ? up_single : up_block)(&up);
        time = seconds() - begin;
        best = time < best ? time : best;
        larboardyuzu_down_close(&down);
        larboardyuzu_up_close(&up);
    }
    printf("%s, %s: %lu, %.1f ns each\n", given[1], given[2], (unsigned long)packets,
           best * 1e9 / (double)packets);
    return 0;
}
