/* After random use, a handle that is reset gives what a new one gives that was opened with the same
 * arguments, and its reads answer the same. Also: null stands for an array without items, in each call for
 * one packet or byte. */
#include "check.h"
#include "subjects.h"

#include <string.h>

enum {
    WORDS = 600,
    BYTES = 1500,
    ROUNDS = 12
};

static uint32_t words[WORDS];
static uint8_t bytes[BYTES];

static input at_of(const subject *it, size_t at)
{
    input in;
    if (it->takes_words)
        in.words = words + at;
    else
        in.bytes = bytes + at;
    return in;
}

/* Both handles take the same input from `at` on; the other one may be missing. */
static void take_all(const subject *it, handle *one, handle *other, uint32_t room)
{
    static places out, out_of_other;
    static items item, item_of_other;
    const size_t all = it->takes_words ? WORDS : BYTES;

    for (size_t at = 0; at < all;) {
        size_t count = it->takes_words ? larboardyuzu_words_in_packet(words[at]) : 1;
        uint32_t status;
        memset(&out, 0xAA, sizeof out);
        memset(&out_of_other, 0xAA, sizeof out_of_other);
        memset(&item, 0xAA, sizeof item);
        memset(&item_of_other, 0xAA, sizeof item_of_other);
        status = it->one(one, at_of(it, at), count, at, &out, it->most(room), &item);
        if (other != NULL) {
            CHECK(it->one(other, at_of(it, at), count, at, &out_of_other, it->most(room), &item_of_other)
                  == status);
            CHECK(!memcmp(&out, &out_of_other, sizeof out));
            CHECK(is_same_item(it, &item, 0, &item_of_other, 0));
        }
        at += count;
    }
}

static void fill(void)
{
    random_words(words, WORDS);
    random_bytes(bytes, BYTES);
}

static void resets_of(const subject *it)
{
    handle used = { LARBOARDYUZU_CLOSED }, fresh = { LARBOARDYUZU_CLOSED },
           closed = { LARBOARDYUZU_CLOSED };

    CHECK(it->reset(&closed) == LARBOARDYUZU_HANDLE_CLOSED);
    for (int round = 0; round < ROUNDS; round++) {
        uint32_t room = 6 + random_number() % (MOST_ROOM - 5), flags = random_number() & it->flags;
        CHECK(it->open(&used, room, flags) == LARBOARDYUZU_DONE);
        for (int times = 0; times < 3; times++) {
            CHECK(it->open(&fresh, room, flags) == LARBOARDYUZU_DONE);
            fill();
            take_all(it, &used, NULL, room);
            CHECK(it->reset(&used) == LARBOARDYUZU_DONE);
            CHECK(it->reads_same(&used, &fresh));
            fill();
            take_all(it, &used, &fresh, room);
            CHECK(it->reads_same(&used, &fresh));
            it->close(&fresh);
        }
        it->close(&used);
    }
}

/* What a compact translator knows of its receivers is forgotten, and an exclusive that is open is dropped.
 */
static void forgotten(void)
{
    static const uint32_t note[] = { 0x40903C00, 0xC9240000 }, start[] = { 0x30160102, 0x03040506 };
    larboardyuzu_down down = LARBOARDYUZU_CLOSED;
    larboardyuzu_piece piece;
    uint8_t out[LARBOARDYUZU_DOWN_SIZE(MOST_ROOM)];
    uint64_t offset = 7;

    CHECK(larboardyuzu_down_open(&down, MOST_ROOM, LARBOARDYUZU_COMPACT) == LARBOARDYUZU_DONE);
    for (int i = 0; i < 2; i++) {
        CHECK(larboardyuzu_down_packet(&down, note, 2, 0, out, sizeof out, &piece) == LARBOARDYUZU_DONE);
        CHECK(piece.written == 3);
        CHECK(larboardyuzu_down_packet(&down, note, 2, 0, out, sizeof out, &piece) == LARBOARDYUZU_DONE);
        CHECK(piece.written == 2);
        CHECK(larboardyuzu_down_packet(&down, start, 2, 9, out, sizeof out, &piece) == LARBOARDYUZU_DONE);
        CHECK(larboardyuzu_down_begun(&down, 0, &offset) == LARBOARDYUZU_DONE && offset == 9);
        CHECK(larboardyuzu_down_reset(&down) == LARBOARDYUZU_DONE);
        CHECK(larboardyuzu_down_begun(&down, 0, &offset) == LARBOARDYUZU_NOTHING && offset == 9);
    }
    larboardyuzu_down_close(&down);
}

/* No words: not a packet. No buffer: too small. */
static void nulls_of(const subject *it)
{
    static places out;
    static items item;
    handle open = { LARBOARDYUZU_CLOSED };
    input none;

    memset(&none, 0, sizeof none);
    CHECK(it->open(&open, MOST_ROOM, 0) == LARBOARDYUZU_DONE);
    if (it->takes_words)
        CHECK(it->one(&open, none, 0, 0, &out, it->most(MOST_ROOM), &item) == LARBOARDYUZU_BAD_WORD_COUNT);
    if (it->has_buffers)
        CHECK(it->one(&open, at_of(it, 0), it->takes_words ? larboardyuzu_words_in_packet(words[0]) : 1, 0,
                      NULL, 0, &item)
              == LARBOARDYUZU_SMALL_BUFFER);
    it->close(&open);
}

static void other_nulls(void)
{
    larboardyuzu_endpoint endpoint = LARBOARDYUZU_CLOSED;
    uint32_t out[4];
    uint8_t text[LARBOARDYUZU_MOST_LINE], rule = 77;
    size_t length = 7;

    /* a text without tables lacks the endpoint's (rule 1) */
    CHECK(larboardyuzu_endpoint_open(&endpoint, NULL, 0, 64, &rule) == LARBOARDYUZU_SETUP_RULE
          && rule == 1);
    CHECK(larboardyuzu_sysex8_cut(0, 1, NULL, 0, 0, out, 4) == LARBOARDYUZU_DONE);
    CHECK(larboardyuzu_sysex8_cut(0, 1, NULL, 0, 0, NULL, 0) == LARBOARDYUZU_SMALL_BUFFER);
    CHECK(larboardyuzu_exclusive_packet(0, NULL, 0, 0, NULL, 0) == LARBOARDYUZU_SMALL_BUFFER);
    CHECK(larboardyuzu_packet_line(NULL, 0, 0, text, sizeof text, &length) == LARBOARDYUZU_BAD_WORD_COUNT);
    CHECK(larboardyuzu_packet_line(NULL, 0, 0, NULL, 0, &length) == LARBOARDYUZU_SMALL_BUFFER);
    CHECK(length == 0);
}

int main(void)
{
    for (size_t i = 0; i < SUBJECTS; i++) {
        resets_of(&subjects[i]);
        nulls_of(&subjects[i]);
    }
    forgotten();
    other_nulls();
    printf("resets: %d rounds of %d kinds, ok\n", 3 * ROUNDS, SUBJECTS);
    return 0;
}
