/* Every status of the calls down and up, what is written with it, and what the handle holds after it. */
#include "check.h"
#include "larboardyuzu.h"

#include <string.h>

enum {
    ROOM = 8,
    SIZE = LARBOARDYUZU_DOWN_SIZE(ROOM),
    WORDS = LARBOARDYUZU_UP_SIZE(ROOM)
};

static const uint32_t note_on[] = { 0x40903C00, 0xC9240000 };
static const uint32_t increment[] = { 0x20B06001 }, decrement[] = { 0x20B06101 };
static const uint32_t high_bit[] = { 0x20903C80 };
static const uint32_t start[] = { 0x30160102, 0x03040506 }, end[] = { 0x30310700, 0x00000000 };
static const uint32_t too_many[] = { 0x30370102, 0x03040506 };
static const uint32_t longer[] = { 0x30260102, 0x03040506 };

/* ---- Structs: their sizes are part of the binary interface. */

static void sizes(void)
{
    static const uint32_t rooms[] = { 0, 6, 9, 10, 12, 13, 1000, LARBOARDYUZU_MOST_ROOM };

    CHECK(larboardyuzu_version() == LARBOARDYUZU_VERSION);
    for (size_t i = 0; i < COUNT(rooms); i++) {
        CHECK(larboardyuzu_down_size(rooms[i]) == LARBOARDYUZU_DOWN_SIZE(rooms[i]));
        CHECK(larboardyuzu_up_size(rooms[i]) == LARBOARDYUZU_UP_SIZE(rooms[i]));
        CHECK(larboardyuzu_parser_size(rooms[i]) == LARBOARDYUZU_PARSER_SIZE(rooms[i]));
        CHECK(larboardyuzu_usb_size(rooms[i]) == LARBOARDYUZU_USB_SIZE(rooms[i]));
    }
    for (uint32_t room = LARBOARDYUZU_LEAST_ROOM; room <= LARBOARDYUZU_MOST_ROOM; room += 1 + room / 100)
        CHECK(larboardyuzu_down_size(room) == LARBOARDYUZU_DOWN_SIZE(room)
              && larboardyuzu_up_size(room) == LARBOARDYUZU_UP_SIZE(room));
    /* total, for any room */
    CHECK(larboardyuzu_down_size(UINT32_MAX) == (size_t)UINT32_MAX + 2);
    CHECK(larboardyuzu_parser_size(UINT32_MAX) == (size_t)UINT32_MAX + 2);
    CHECK(larboardyuzu_up_size(UINT32_MAX) == ((size_t)UINT32_MAX + 5) / 6 * 2);
    CHECK(larboardyuzu_usb_size(UINT32_MAX) == ((size_t)UINT32_MAX + 4) / 3 * 4);
    CHECK(sizeof(larboardyuzu_down) == 16 && sizeof(larboardyuzu_up) == 16);
    CHECK(sizeof(larboardyuzu_parser) == 16 && sizeof(larboardyuzu_endpoint) == 16);
    CHECK(sizeof(larboardyuzu_state) == 16 && sizeof(larboardyuzu_sysex8) == 16);
    CHECK(sizeof(larboardyuzu_usb) == 16);
    CHECK(sizeof(larboardyuzu_line) == 16 && sizeof(larboardyuzu_block) == 48);
    CHECK(sizeof(larboardyuzu_piece) == 32 && sizeof(larboardyuzu_outcome) == 56);
    CHECK(sizeof(larboardyuzu_replies) == 32 && sizeof(larboardyuzu_part) == 32);
    CHECK(sizeof(larboardyuzu_profile) == 9 && sizeof(larboardyuzu_fact) == 24);
    CHECK(sizeof(larboardyuzu_carried) == 5);
}

/* ---- Down. */

static uint32_t push(larboardyuzu_down *down, const uint32_t *words, size_t count,
                     larboardyuzu_piece *piece, uint8_t *bytes)
{
    memset(piece, 0x55, sizeof *piece);
    memset(bytes, 0xAA, SIZE);
    return larboardyuzu_down_packet(down, words, count, 40, bytes, SIZE, piece);
}

static void down_closed(void)
{
    larboardyuzu_down down = LARBOARDYUZU_CLOSED;
    larboardyuzu_piece piece;
    larboardyuzu_block block;
    uint8_t bytes[SIZE];
    uint64_t offset = 7;

    CHECK(push(&down, note_on, 2, &piece, bytes) == LARBOARDYUZU_HANDLE_CLOSED);
    CHECK(piece.written == 0 && piece.kind == LARBOARDYUZU_NO_LINE && bytes[0] == 0xAA);
    CHECK(larboardyuzu_down_packets(&down, note_on, 2, 0, bytes, SIZE, &piece, 1, &block)
          == LARBOARDYUZU_HANDLE_CLOSED);
    CHECK(block.taken == 0 && block.written == 0 && block.items == 0);
    CHECK(larboardyuzu_down_begun(&down, 0, &offset) == LARBOARDYUZU_HANDLE_CLOSED && offset == 7);
    CHECK(larboardyuzu_down_reset(&down) == LARBOARDYUZU_HANDLE_CLOSED);
    larboardyuzu_down_close(&down);
    CHECK(down.memory == NULL && !down.is_open);
    CHECK(larboardyuzu_down_open(&down, 5, 0) == LARBOARDYUZU_BAD_ROOM);
    CHECK(larboardyuzu_down_open(&down, 1048577, 0) == LARBOARDYUZU_BAD_ROOM);
    CHECK(larboardyuzu_down_open(&down, UINT32_MAX, UINT32_MAX) == LARBOARDYUZU_BAD_ROOM);
    for (uint32_t flag = 4; flag != 0; flag <<= 1)
        CHECK(larboardyuzu_down_open(&down, ROOM, flag | LARBOARDYUZU_COMPACT) == LARBOARDYUZU_BAD_FLAGS);
    CHECK(!down.is_open);
}

/* A refusal leaves an exclusive that is open, and a further packet is taken as before. */
static void down_refused(larboardyuzu_down *down, const uint32_t *words, size_t count, uint32_t status)
{
    larboardyuzu_piece piece;
    uint8_t bytes[SIZE];
    uint64_t offset = 0;

    CHECK(push(down, start, 2, &piece, bytes) == LARBOARDYUZU_DONE && piece.written == 0);
    CHECK(push(down, words, count, &piece, bytes) == status);
    CHECK(piece.written == 0 && piece.kind == LARBOARDYUZU_NO_LINE && bytes[0] == 0xAA);
    CHECK(larboardyuzu_down_begun(down, 0, &offset) == LARBOARDYUZU_DONE && offset == 40);
    CHECK(push(down, end, 2, &piece, bytes) == LARBOARDYUZU_DONE && piece.written == 9 && piece.lane == 0);
    CHECK(!memcmp(bytes, "\xF0\1\2\3\4\5\6\7\xF7", 9) && bytes[9] == 0xAA);
}

static void down_statuses(void)
{
    larboardyuzu_down down = LARBOARDYUZU_CLOSED;
    larboardyuzu_piece piece;
    uint8_t bytes[SIZE];
    uint64_t offset = 7;

    CHECK(larboardyuzu_down_open(&down, ROOM, 0) == LARBOARDYUZU_DONE && down.is_open);
    CHECK(larboardyuzu_down_open(&down, ROOM, LARBOARDYUZU_COMPACT) == LARBOARDYUZU_ALREADY_OPEN);
    CHECK(larboardyuzu_down_open(&down, ROOM, LARBOARDYUZU_OF_BYTES) == LARBOARDYUZU_BAD_FLAGS);
    CHECK(larboardyuzu_up_open((larboardyuzu_up *)&down, 0, ROOM, LARBOARDYUZU_PAIRED)
          == LARBOARDYUZU_ALREADY_OPEN);
    CHECK(push(&down, note_on, 2, &piece, bytes) == LARBOARDYUZU_DONE);
    CHECK(piece.written == 3 && piece.lane == 0 && piece.kind == LARBOARDYUZU_NO_LINE);
    CHECK(!memcmp(bytes, "\x90\x3C\x64\xAA", 4));
    down_refused(&down, note_on, 1, LARBOARDYUZU_BAD_WORD_COUNT);
    down_refused(&down, note_on, 0, LARBOARDYUZU_BAD_WORD_COUNT);
    down_refused(&down, increment, 1, LARBOARDYUZU_DATA_INCREMENT);
    down_refused(&down, decrement, 1, LARBOARDYUZU_DATA_DECREMENT);
    down_refused(&down, high_bit, 1, LARBOARDYUZU_HIGH_BIT);
    down_refused(&down, too_many, 2, LARBOARDYUZU_BAD_COUNT);
    CHECK(larboardyuzu_down_begun(&down, 0, &offset) == LARBOARDYUZU_NOTHING && offset == 7);
    CHECK(larboardyuzu_down_begun(&down, 16, &offset) == LARBOARDYUZU_BAD_GROUP && offset == 7);
    /* more bytes than the limit: that exclusive is dropped, and the next one is taken */
    CHECK(push(&down, start, 2, &piece, bytes) == LARBOARDYUZU_DONE);
    CHECK(push(&down, longer, 2, &piece, bytes) == LARBOARDYUZU_EXCLUSIVE_TOO_LONG);
    CHECK(larboardyuzu_down_begun(&down, 0, &offset) == LARBOARDYUZU_NOTHING);
    down_refused(&down, high_bit, 1, LARBOARDYUZU_HIGH_BIT);
    larboardyuzu_down_close(&down);
    CHECK(!down.is_open);
    CHECK(push(&down, note_on, 2, &piece, bytes) == LARBOARDYUZU_HANDLE_CLOSED);
}

/* A buffer that is too small for some packet is refused before any packet is taken. */
static void down_small(void)
{
    larboardyuzu_down down = LARBOARDYUZU_CLOSED;
    larboardyuzu_piece piece;
    uint8_t bytes[SIZE];
    uint64_t offset = 7;

    CHECK(larboardyuzu_down_open(&down, ROOM, 0) == LARBOARDYUZU_DONE);
    CHECK(push(&down, start, 2, &piece, bytes) == LARBOARDYUZU_DONE);
    for (size_t size = 0; size < SIZE; size++) {
        CHECK(larboardyuzu_down_packet(&down, end, 2, 0, bytes, size, &piece) == LARBOARDYUZU_SMALL_BUFFER);
        CHECK(piece.written == 0 && piece.need == SIZE && piece.group == 255);
        /* the buffer is tested before the words */
        CHECK(larboardyuzu_down_packet(&down, end, 1, 0, bytes, size, &piece) == LARBOARDYUZU_SMALL_BUFFER);
    }
    CHECK(larboardyuzu_down_begun(&down, 0, &offset) == LARBOARDYUZU_DONE && offset == 40);
    CHECK(push(&down, end, 2, &piece, bytes) == LARBOARDYUZU_DONE && piece.written == 9);
    larboardyuzu_down_close(&down);
}

/* In compact style a refusal leaves the running status. */
static void down_compact(void)
{
    static const uint32_t higher[] = { 0x40903E00, 0xC9240000 };
    larboardyuzu_down down = LARBOARDYUZU_CLOSED;
    larboardyuzu_piece piece;
    uint8_t bytes[SIZE];

    CHECK(larboardyuzu_down_open(&down, ROOM, LARBOARDYUZU_COMPACT) == LARBOARDYUZU_DONE);
    CHECK(push(&down, note_on, 2, &piece, bytes) == LARBOARDYUZU_DONE && piece.written == 3);
    CHECK(push(&down, increment, 1, &piece, bytes) == LARBOARDYUZU_DATA_INCREMENT);
    CHECK(push(&down, high_bit, 1, &piece, bytes) == LARBOARDYUZU_HIGH_BIT);
    CHECK(push(&down, higher, 2, &piece, bytes) == LARBOARDYUZU_DONE && piece.written == 2);
    CHECK(!memcmp(bytes, "\x3E\x64\xAA", 3));
    larboardyuzu_down_close(&down);
}

/* ---- Up. */

static uint32_t take(larboardyuzu_up *up, uint8_t byte, larboardyuzu_outcome *outcome, uint32_t *words)
{
    memset(outcome, 0x55, sizeof *outcome);
    memset(words, 0xAA, WORDS * sizeof words[0]);
    return larboardyuzu_up_byte(up, byte, 40, words, WORDS, outcome);
}

static bool is_silent(const larboardyuzu_outcome *outcome)
{
    return outcome->written == 0 && outcome->first.kind == LARBOARDYUZU_NO_LINE
           && outcome->second.kind == LARBOARDYUZU_NO_LINE;
}

static void up_statuses(void)
{
    larboardyuzu_up up = LARBOARDYUZU_CLOSED;
    larboardyuzu_outcome outcome;
    larboardyuzu_line line = { 7, 7 };
    larboardyuzu_block block;
    uint32_t words[WORDS];

    CHECK(take(&up, 0x90, &outcome, words) == LARBOARDYUZU_HANDLE_CLOSED && is_silent(&outcome));
    CHECK(larboardyuzu_up_end(&up, &line) == LARBOARDYUZU_HANDLE_CLOSED && line.kind == 7);
    CHECK(outcome.offset == 0);
    CHECK(larboardyuzu_up_bytes(&up, (const uint8_t *)"\x90", 1, 0, words, WORDS, &outcome, 1, &block)
          == LARBOARDYUZU_HANDLE_CLOSED);
    CHECK(block.taken == 0 && block.written == 0 && block.items == 0);
    CHECK(larboardyuzu_up_open(&up, 16, ROOM, 0) == LARBOARDYUZU_BAD_GROUP && !up.is_open);
    CHECK(larboardyuzu_up_open(&up, 0, 5, 0) == LARBOARDYUZU_BAD_ROOM && !up.is_open);
    CHECK(larboardyuzu_up_open(&up, 0, ROOM, LARBOARDYUZU_COMPACT) == LARBOARDYUZU_BAD_FLAGS
          && !up.is_open);
    CHECK(larboardyuzu_up_open(&up, 16, ROOM, LARBOARDYUZU_COMPACT) == LARBOARDYUZU_BAD_GROUP
          && !up.is_open);
    CHECK(larboardyuzu_up_open(&up, 15, ROOM, 0) == LARBOARDYUZU_DONE && up.is_open);
    CHECK(larboardyuzu_up_open(&up, 15, ROOM, 0) == LARBOARDYUZU_ALREADY_OPEN);
    CHECK(larboardyuzu_up_open(&up, 15, ROOM, 4) == LARBOARDYUZU_BAD_FLAGS);
    CHECK(larboardyuzu_up_end(&up, &line) == LARBOARDYUZU_NOTHING && line.kind == 7);
    /* a data byte that belongs to nothing, and a status that no message has */
    CHECK(take(&up, 0x3C, &outcome, words) == LARBOARDYUZU_DONE && outcome.written == 0);
    CHECK(outcome.first.kind == LARBOARDYUZU_STRAY && outcome.first.offset == 40);
    CHECK(take(&up, 0xF4, &outcome, words) == LARBOARDYUZU_DONE);
    CHECK(outcome.first.kind == LARBOARDYUZU_UNDEFINED && outcome.second.kind == LARBOARDYUZU_NO_LINE);
    /* a message that an undefined status cuts off */
    CHECK(take(&up, 0x90, &outcome, words) == LARBOARDYUZU_DONE && is_silent(&outcome));
    CHECK(larboardyuzu_up_end(&up, &line) == LARBOARDYUZU_DONE);
    CHECK(line.kind == LARBOARDYUZU_OPEN_MESSAGE && line.offset == 40);
    CHECK(take(&up, 0xF4, &outcome, words) == LARBOARDYUZU_DONE);
    CHECK(outcome.first.kind == LARBOARDYUZU_CUT_MESSAGE && outcome.second.kind == LARBOARDYUZU_UNDEFINED);
    /* too small a buffer is refused before the byte is taken */
    CHECK(take(&up, 0x90, &outcome, words) == LARBOARDYUZU_DONE);
    CHECK(take(&up, 0x3C, &outcome, words) == LARBOARDYUZU_DONE);
    for (size_t size = 0; size < WORDS; size++) {
        CHECK(larboardyuzu_up_byte(&up, 0x64, 0, words, size, &outcome) == LARBOARDYUZU_SMALL_BUFFER);
        CHECK(outcome.need == WORDS && is_silent(&outcome));
    }
    CHECK(take(&up, 0x64, &outcome, words) == LARBOARDYUZU_DONE && outcome.written == 2);
    CHECK(words[0] == 0x4F903C00 && words[1] == 0xC9240000 && words[2] == 0xAAAAAAAA);
    larboardyuzu_up_close(&up);
    CHECK(!up.is_open);
}

/* A refused byte of an exclusive drops it, and ends the running status; the next message is taken. */
static void up_too_long(void)
{
    larboardyuzu_up up = LARBOARDYUZU_CLOSED;
    larboardyuzu_outcome outcome;
    larboardyuzu_line line;
    uint32_t words[WORDS];

    CHECK(larboardyuzu_up_open(&up, 0, ROOM, 0) == LARBOARDYUZU_DONE);
    CHECK(take(&up, 0xF0, &outcome, words) == LARBOARDYUZU_DONE);
    for (uint8_t byte = 0; byte < ROOM; byte++)
        CHECK(take(&up, byte, &outcome, words) == LARBOARDYUZU_DONE && is_silent(&outcome));
    CHECK(take(&up, 1, &outcome, words) == LARBOARDYUZU_EXCLUSIVE_TOO_LONG && is_silent(&outcome));
    CHECK(larboardyuzu_up_end(&up, &line) == LARBOARDYUZU_NOTHING);
    CHECK(take(&up, 1, &outcome, words) == LARBOARDYUZU_DONE && outcome.first.kind == LARBOARDYUZU_STRAY);
    CHECK(take(&up, 0xF0, &outcome, words) == LARBOARDYUZU_DONE);
    for (uint8_t byte = 1; byte <= 7; byte++)
        CHECK(take(&up, byte, &outcome, words) == LARBOARDYUZU_DONE);
    CHECK(take(&up, 0xF7, &outcome, words) == LARBOARDYUZU_DONE && outcome.written == 4);
    CHECK(words[0] == 0x30160102 && words[1] == 0x03040506 && words[2] == 0x30310700 && words[3] == 0);
    larboardyuzu_up_close(&up);
}

static void up_increment(void)
{
    static const uint8_t control[] = { 0xB0, 0x60, 0x01 };
    larboardyuzu_up up = LARBOARDYUZU_CLOSED;
    larboardyuzu_outcome outcome;
    uint32_t words[WORDS];

    CHECK(larboardyuzu_up_open(&up, 0, ROOM, 0) == LARBOARDYUZU_DONE);
    for (size_t i = 0; i + 1 < sizeof control; i++)
        CHECK(take(&up, control[i], &outcome, words) == LARBOARDYUZU_DONE && is_silent(&outcome));
    CHECK(take(&up, control[2], &outcome, words) == LARBOARDYUZU_DATA_INCREMENT && is_silent(&outcome));
    /* the running status stands */
    CHECK(take(&up, 0x61, &outcome, words) == LARBOARDYUZU_DONE);
    CHECK(take(&up, 0x01, &outcome, words) == LARBOARDYUZU_DATA_DECREMENT);
    CHECK(take(&up, 0x07, &outcome, words) == LARBOARDYUZU_DONE);
    CHECK(take(&up, 0x7F, &outcome, words) == LARBOARDYUZU_DONE && outcome.written == 2);
    CHECK(words[0] == 0x40B00700 && words[1] == 0xFFFFFFFF);
    larboardyuzu_up_close(&up);
}

/* ---- A handle may be moved. */

static void moved(void)
{
    larboardyuzu_down down = LARBOARDYUZU_CLOSED, other;
    larboardyuzu_piece piece;
    uint8_t bytes[SIZE];

    CHECK(larboardyuzu_down_open(&down, ROOM, 0) == LARBOARDYUZU_DONE);
    CHECK(push(&down, start, 2, &piece, bytes) == LARBOARDYUZU_DONE);
    memcpy(&other, &down, sizeof other);
    memset(&down, 0, sizeof down);
    CHECK(push(&other, end, 2, &piece, bytes) == LARBOARDYUZU_DONE && piece.written == 9);
    larboardyuzu_down_close(&other);
}

/* ---- A handle of another kind. */

static void other_kind(void)
{
    larboardyuzu_up up = LARBOARDYUZU_CLOSED;
    larboardyuzu_down *down = (larboardyuzu_down *)&up;
    larboardyuzu_piece piece;
    larboardyuzu_block block;
    uint8_t bytes[SIZE];
    uint64_t offset = 7;

    CHECK(larboardyuzu_up_open(&up, 0, ROOM, 0) == LARBOARDYUZU_DONE);
    CHECK(push(down, note_on, 2, &piece, bytes) == LARBOARDYUZU_OTHER_KIND && piece.written == 0);
    CHECK(larboardyuzu_down_packets(down, note_on, 2, 0, bytes, SIZE, &piece, 1, &block)
          == LARBOARDYUZU_OTHER_KIND);
    CHECK(block.taken == 0 && block.written == 0 && block.items == 0 && block.refused == 0);
    CHECK(block.need == 0 && block.need_items == 0);
    CHECK(larboardyuzu_down_begun(down, 0, &offset) == LARBOARDYUZU_OTHER_KIND && offset == 7);
    CHECK(larboardyuzu_down_reset(down) == LARBOARDYUZU_OTHER_KIND && up.is_open);
    CHECK(larboardyuzu_down_open(down, ROOM, 0) == LARBOARDYUZU_ALREADY_OPEN && up.is_open);
    larboardyuzu_up_close(&up);
}

int main(void)
{
    sizes();
    down_closed();
    down_statuses();
    down_small();
    down_compact();
    up_statuses();
    up_too_long();
    up_increment();
    moved();
    other_kind();
    printf("translators: ok\n");
    return 0;
}
