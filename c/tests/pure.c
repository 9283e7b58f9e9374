/* The pure functions, with each of their statuses. */
#include "check.h"
#include "larboardyuzu.h"

#include <string.h>

static void exclusives(void)
{
    static const uint8_t seven[] = { 1, 2, 3, 4, 5, 6, 7 }, high[] = { 0x80 };
    static const uint8_t late[] = { 1, 2, 3, 4, 5, 6, 7, 8, 9, 10, 11, 12, 200 };
    uint32_t words[2] = { 7, 7 };

    for (uint32_t type = 0; type < 16; type++) {
        /* M2-104-UM: how many words each message type has */
        static const uint32_t counts[] = { 1, 1, 1, 2, 2, 4, 1, 1, 2, 2, 2, 3, 3, 4, 4, 4 };
        CHECK(larboardyuzu_words_in_packet(type << 28 | 0x0ABCDEF) == counts[type]);
    }
    CHECK(larboardyuzu_exclusive_packet(16, seven, 7, 0, words, 2) == LARBOARDYUZU_BAD_GROUP);
    CHECK(larboardyuzu_exclusive_packet(0, high, 1, 0, words, 2) == LARBOARDYUZU_HIGH_BIT);
    CHECK(larboardyuzu_exclusive_packet(0, seven, 7, 2, words, 2) == LARBOARDYUZU_NOTHING);
    /* at index 0 a byte over 127 anywhere is refused; later those of the packet */
    CHECK(larboardyuzu_exclusive_packet(0, late, 13, 0, words, 2) == LARBOARDYUZU_HIGH_BIT);
    CHECK(larboardyuzu_exclusive_packet(0, late, 13, 2, words, 2) == LARBOARDYUZU_HIGH_BIT);
    CHECK(larboardyuzu_exclusive_packet(0, late, 12, 0, words, 1) == LARBOARDYUZU_SMALL_BUFFER);
    CHECK(larboardyuzu_exclusive_packet(16, high, 1, 9, words, 1) == LARBOARDYUZU_SMALL_BUFFER);
    CHECK(larboardyuzu_exclusive_packet(0, seven, 7, 0, words, 1) == LARBOARDYUZU_SMALL_BUFFER);
    CHECK(words[0] == 7 && words[1] == 7);
    CHECK(larboardyuzu_exclusive_packet(0, seven, 7, 1, words, 2) == LARBOARDYUZU_DONE);
    CHECK(words[0] == 0x30310700 && words[1] == 0);
    CHECK(larboardyuzu_exclusive_packet(0, late, 13, 1, words, 2) == LARBOARDYUZU_DONE);
    CHECK(words[0] == 0x30260708 && words[1] == 0x090A0B0C);
    CHECK(larboardyuzu_exclusive_packet(0, NULL, 0, 0, words, 2) == LARBOARDYUZU_DONE);
    CHECK(words[0] == 0x30000000 && words[1] == 0);
    CHECK(larboardyuzu_exclusive_packet(5, seven, 6, 0, words, 2) == LARBOARDYUZU_DONE);
    CHECK(words[0] == 0x35060102 && words[1] == 0x03040506);
    CHECK(larboardyuzu_exclusive_packet(0, seven, 0, 0, words, 2) == LARBOARDYUZU_DONE);
    CHECK(words[0] == 0x30000000 && words[1] == 0);
}

/* M2-104-UM, system exclusive 8-bit messages: the count has the stream id as well. */
static void wide_exclusives(void)
{
    static const uint8_t bytes[] = { 0x80, 1, 2, 3, 4, 5, 6, 7, 8, 9, 10, 11, 12, 0xFF };
    uint32_t words[4] = { 7, 7, 7, 7 };

    CHECK(larboardyuzu_sysex8_cut(16, 0, bytes, 14, 0, words, 4) == LARBOARDYUZU_BAD_GROUP);
    CHECK(larboardyuzu_sysex8_cut(0, 0, bytes, 14, 2, words, 4) == LARBOARDYUZU_NOTHING);
    CHECK(larboardyuzu_sysex8_cut(0, 0, bytes, 14, 0, words, 3) == LARBOARDYUZU_SMALL_BUFFER);
    CHECK(words[0] == 7 && words[3] == 7);
    CHECK(larboardyuzu_sysex8_cut(3, 0xAB, bytes, 14, 0, words, 4) == LARBOARDYUZU_DONE);
    CHECK(words[0] == 0x531EAB80 && words[1] == 0x01020304 && words[2] == 0x05060708
          && words[3] == 0x090A0B0C);
    CHECK(larboardyuzu_sysex8_cut(3, 0xAB, bytes, 14, 1, words, 4) == LARBOARDYUZU_DONE);
    CHECK(words[0] == 0x5332ABFF && words[1] == 0 && words[2] == 0 && words[3] == 0);
    CHECK(larboardyuzu_sysex8_cut(0, 1, bytes, 13, 0, words, 4) == LARBOARDYUZU_DONE);
    CHECK(words[0] == 0x500E0180 && words[3] == 0x090A0B0C);
    CHECK(larboardyuzu_sysex8_cut(0, 2, bytes, 0, 0, words, 4) == LARBOARDYUZU_DONE);
    CHECK(words[0] == 0x50010200 && words[1] == 0 && words[2] == 0 && words[3] == 0);
}

/* What is cut is joined again. */
static void wide_exclusives_joined(void)
{
    larboardyuzu_sysex8 sysex8 = LARBOARDYUZU_CLOSED;
    uint8_t bytes[300], joined[300];
    uint32_t words[4];
    larboardyuzu_part part;

    for (size_t i = 0; i < sizeof bytes; i++)
        bytes[i] = (uint8_t)(i * 37 + 11);
    CHECK(larboardyuzu_sysex8_open(&sysex8, 1, sizeof bytes) == LARBOARDYUZU_DONE);
    for (size_t size = 0; size <= sizeof bytes; size++) {
        const size_t count = size == 0 ? 1 : (size + 12) / 13;
        for (size_t k = 0; k < count; k++) {
            CHECK(larboardyuzu_sysex8_cut(9, 5, bytes, size, k, words, 4) == LARBOARDYUZU_DONE);
            CHECK(larboardyuzu_sysex8_packet(&sysex8, words, 4, k, joined, sizeof joined, &part)
                  == LARBOARDYUZU_DONE);
            CHECK(part.answer == (k + 1 == count ? LARBOARDYUZU_JOINED_WHOLE : LARBOARDYUZU_JOINED_HELD));
        }
        CHECK(part.written == size && part.group == 9 && part.stream == 5);
        CHECK(memcmp(joined, bytes, size) == 0);
        CHECK(larboardyuzu_sysex8_cut(9, 5, bytes, size, count, words, 4) == LARBOARDYUZU_NOTHING);
    }
    larboardyuzu_sysex8_close(&sysex8);
}

static void lines(void)
{
    static const char wanted[] = "16 40903C00 C9240000";
    static const uint32_t words[] = { 0x40903C00, 0xC9240000 };
    uint8_t text[LARBOARDYUZU_MOST_LINE];
    size_t length = 0;

    CHECK(larboardyuzu_packet_line(words, 1, 16, text, sizeof text, &length)
          == LARBOARDYUZU_BAD_WORD_COUNT);
    length = 7;
    CHECK(larboardyuzu_packet_line(words, 1, 16, text, 255, &length) == LARBOARDYUZU_SMALL_BUFFER);
    CHECK(length == 0);
    CHECK(larboardyuzu_packet_line(words, 2, 16, text, sizeof text, &length) == LARBOARDYUZU_DONE);
    CHECK(length > sizeof wanted && !memcmp(text, wanted, sizeof wanted - 1) && text[length - 1] == '\n');
}

/* M2-115-U: zero, the centre and the greatest value stand where they are, and the others between. */
static void scalings(void)
{
    uint32_t scaled = 7;

    CHECK(larboardyuzu_scale_up(100, 7, 16, &scaled) == LARBOARDYUZU_DONE && scaled == 51492);
    CHECK(larboardyuzu_scale_up(0, 7, 32, &scaled) == LARBOARDYUZU_DONE && scaled == 0);
    CHECK(larboardyuzu_scale_up(64, 7, 32, &scaled) == LARBOARDYUZU_DONE && scaled == 0x80000000);
    CHECK(larboardyuzu_scale_up(127, 7, 32, &scaled) == LARBOARDYUZU_DONE && scaled == 0xFFFFFFFF);
    CHECK(larboardyuzu_scale_up(8192, 14, 32, &scaled) == LARBOARDYUZU_DONE && scaled == 0x80000000);
    CHECK(larboardyuzu_scale_up(16383, 14, 32, &scaled) == LARBOARDYUZU_DONE && scaled == 0xFFFFFFFF);
    scaled = 7;
    CHECK(larboardyuzu_scale_up(128, 7, 32, &scaled) == LARBOARDYUZU_BAD_VALUE && scaled == 7);
    CHECK(larboardyuzu_scale_up(1, 14, 16, &scaled) == LARBOARDYUZU_BAD_BITS && scaled == 7);
    CHECK(larboardyuzu_scale_down(65536, 16, 7, &scaled) == LARBOARDYUZU_BAD_VALUE && scaled == 7);
    CHECK(larboardyuzu_scale_down(1, 7, 16, &scaled) == LARBOARDYUZU_BAD_BITS && scaled == 7);
    CHECK(larboardyuzu_scale_down(51492, 16, 7, &scaled) == LARBOARDYUZU_DONE && scaled == 100);
    CHECK(larboardyuzu_scale_down(0xFFFFFFFF, 32, 14, &scaled) == LARBOARDYUZU_DONE && scaled == 16383);
    CHECK(larboardyuzu_scale_down(0x80000000, 32, 7, &scaled) == LARBOARDYUZU_DONE && scaled == 64);
}

/* ---- The words of the header. */

typedef uint32_t (*name_call)(uint32_t number, uint8_t *text, size_t size, size_t *length);

static void must_name(name_call call, uint32_t number, const char *wanted)
{
    uint8_t text[LARBOARDYUZU_MOST_NAME + 1];
    size_t length = 7, size = strlen(wanted);

    CHECK(size <= LARBOARDYUZU_MOST_NAME);
    memset(text, 0xAA, sizeof text);
    for (size_t room = 0; room < size; room++)
        CHECK(call(number, text, room, &length) == LARBOARDYUZU_SMALL_BUFFER && length == 0
              && text[0] == 0xAA);
    CHECK(call(number, text, size, &length) == LARBOARDYUZU_DONE && length == size);
    CHECK(!memcmp(text, wanted, size) && text[size] == 0xAA);
}

/* Those that a caller may rely on; c/interface.py compares all words with the header. */
static void names(void)
{
    uint8_t text[LARBOARDYUZU_MOST_NAME];
    size_t length = 7;

    must_name(larboardyuzu_status_name, LARBOARDYUZU_DONE, "DONE");
    must_name(larboardyuzu_status_name, LARBOARDYUZU_SMALL_BUFFER, "SMALL_BUFFER");
    must_name(larboardyuzu_status_name, LARBOARDYUZU_BAD_CHANNEL, "BAD_CHANNEL");
    must_name(larboardyuzu_kind_name, LARBOARDYUZU_NO_LINE, "NO_LINE");
    must_name(larboardyuzu_kind_name, LARBOARDYUZU_NOTE_ATTRIBUTE, "NOTE_ATTRIBUTE");
    must_name(larboardyuzu_kind_name, LARBOARDYUZU_IGNORED_DATA_ENTRY, "IGNORED_DATA_ENTRY");
    must_name(larboardyuzu_heard_name, LARBOARDYUZU_HEARD_NOTHING, "NOTHING");
    must_name(larboardyuzu_heard_name, LARBOARDYUZU_HEARD_NOT_CI, "NOT_CI");
    must_name(larboardyuzu_heard_name, LARBOARDYUZU_HEARD_BAD_FORMAT, "BAD_FORMAT");
    CHECK(larboardyuzu_status_name(24, text, sizeof text, &length) == LARBOARDYUZU_NOTHING && length == 0);
    CHECK(larboardyuzu_kind_name(22, text, sizeof text, &length) == LARBOARDYUZU_NOTHING && length == 0);
    CHECK(larboardyuzu_heard_name(18, text, sizeof text, &length) == LARBOARDYUZU_NOTHING && length == 0);
    CHECK(larboardyuzu_heard_name(UINT32_MAX, NULL, 0, &length) == LARBOARDYUZU_NOTHING && length == 0);
    CHECK(larboardyuzu_heard_name(1, NULL, 0, &length) == LARBOARDYUZU_SMALL_BUFFER && length == 0);
}

/* ---- Bytes to packets. */

static bool is_block(const larboardyuzu_block *block, size_t taken, size_t written, size_t need)
{
    return block->taken == taken && block->written == written && block->need == need && block->items == 0
           && block->refused == 0 && block->need_items == 0;
}

static void packets_in(void)
{
    /* two words, one word, four words */
    static const uint8_t bytes[] = { 0x40, 0x90, 0x3C, 0,    0xC9, 0x24, 0, 0, 0x20, 0x90,
                                     0x3C, 0x64, 0xF0, 0,    1,    1,    0, 0, 0,    1,
                                     0x80, 0x81, 0x82, 0x83, 4,    5,    6, 7 };
    uint8_t turned[sizeof bytes];
    uint32_t words[8];
    larboardyuzu_block block;

    for (size_t i = 0; i < sizeof bytes; i++)
        turned[i] = bytes[i / 4 * 4 + 3 - i % 4];
    memset(words, 0xAA, sizeof words);
    CHECK(larboardyuzu_packets_in(bytes, sizeof bytes, 0, words, 7, &block) == LARBOARDYUZU_DONE);
    CHECK(is_block(&block, sizeof bytes, 7, 0) && words[0] == 0x40903C00 && words[1] == 0xC9240000);
    CHECK(words[2] == 0x20903C64 && words[3] == 0xF0000101 && words[4] == 1 && words[5] == 0x80818283);
    CHECK(words[6] == 0x04050607 && words[7] == 0xAAAAAAAA);
    memset(words, 0xAA, sizeof words);
    CHECK(larboardyuzu_packets_in(turned, sizeof turned, LARBOARDYUZU_LITTLE_ENDIAN, words, 7, &block)
          == LARBOARDYUZU_DONE);
    CHECK(is_block(&block, sizeof bytes, 7, 0) && words[1] == 0xC9240000 && words[5] == 0x80818283);
    for (size_t size = 0; size < 7; size++) {
        memset(words, 0xAA, sizeof words);
        CHECK(larboardyuzu_packets_in(bytes, sizeof bytes, 0, words, size, &block)
              == LARBOARDYUZU_SMALL_BUFFER);
        CHECK(is_block(&block,
                       size < 2   ? 0
                       : size < 3 ? 8
                                  : 12,
                       size < 2   ? 0
                       : size < 3 ? 2
                                  : 3,
                       size < 2   ? 2
                       : size < 3 ? 1
                                  : 4));
        CHECK(words[block.written] == 0xAAAAAAAA);
    }
    for (size_t count = 0; count < sizeof bytes; count++) {
        bool is_whole = count == 0 || count == 8 || count == 12;
        CHECK(larboardyuzu_packets_in(bytes, count, 0, words, 8, &block)
              == (is_whole ? LARBOARDYUZU_DONE : LARBOARDYUZU_BAD_SIZE));
        CHECK(is_block(&block, count < 8 ? 0 : count < 12 ? 8 : 12, count < 8 ? 0 : count < 12 ? 2 : 3, 0));
    }
    CHECK(larboardyuzu_packets_in(NULL, 0, 0, NULL, 0, &block) == LARBOARDYUZU_DONE
          && is_block(&block, 0, 0, 0));
    CHECK(larboardyuzu_packets_in(bytes, 8, 1, words, 8, &block) == LARBOARDYUZU_BAD_FLAGS);
    CHECK(is_block(&block, 0, 0, 0));
    CHECK(larboardyuzu_packets_in(bytes, 8, 9, words, 8, &block) == LARBOARDYUZU_BAD_FLAGS);
}

int main(void)
{
    exclusives();
    names();
    packets_in();
    wide_exclusives();
    wide_exclusives_joined();
    lines();
    scalings();
    printf("pure: ok\n");
    return 0;
}
