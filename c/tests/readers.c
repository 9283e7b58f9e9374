/* Every status of the parser, the packer of USB-MIDI events, the join of 8-bit exclusives and the running
 * state. */
#include "check.h"
#include "larboardyuzu.h"

#include <string.h>

enum {
    ROOM = 8
};

/* ---- The parser. */

static void parser_statuses(void)
{
    static const uint8_t running[] = { 0x90, 0x3C, 0x64, 0x3E, 0xF8, 0x64, 0xF4 };
    larboardyuzu_parser parser = LARBOARDYUZU_CLOSED;
    larboardyuzu_outcome outcome, outcomes[5];
    larboardyuzu_block block;
    larboardyuzu_line line = { 7, 7 };
    uint8_t message[4 * LARBOARDYUZU_PARSER_SIZE(ROOM)];
    size_t size = LARBOARDYUZU_PARSER_SIZE(ROOM);

    CHECK(larboardyuzu_parser_byte(&parser, 0xF8, 9, message, size, &outcome)
          == LARBOARDYUZU_HANDLE_CLOSED);
    CHECK(outcome.written == 0 && outcome.need == 0 && outcome.offset == 0);
    CHECK(larboardyuzu_parser_reset(&parser) == LARBOARDYUZU_HANDLE_CLOSED);
    CHECK(larboardyuzu_parser_open(&parser, 5) == LARBOARDYUZU_BAD_ROOM);
    CHECK(larboardyuzu_parser_open(&parser, ROOM) == LARBOARDYUZU_DONE);
    CHECK(larboardyuzu_parser_open(&parser, ROOM) == LARBOARDYUZU_ALREADY_OPEN);
    CHECK(larboardyuzu_parser_end(&parser, &line) == LARBOARDYUZU_NOTHING && line.kind == 7);
    CHECK(larboardyuzu_parser_byte(&parser, 0xF8, 9, message, size - 1, &outcome)
          == LARBOARDYUZU_SMALL_BUFFER);
    CHECK(outcome.written == 0 && outcome.need == size && outcome.offset == 9);
    /* running status is resolved, and a clock comes in the middle of a message */
    CHECK(larboardyuzu_parser_bytes(&parser, running, sizeof running, 100, message, sizeof message,
                                    outcomes, COUNT(outcomes), &block)
          == LARBOARDYUZU_DONE);
    CHECK(block.taken == 7 && block.written == 7 && block.items == 4 && block.refused == 0);
    CHECK(!memcmp(message, "\x90\x3C\x64\xF8\x90\x3E\x64", 7));
    CHECK(outcomes[0].offset == 102 && outcomes[0].written == 3);
    CHECK(outcomes[1].offset == 104 && outcomes[1].written == 1);
    CHECK(outcomes[2].offset == 105 && outcomes[2].written == 3);
    CHECK(outcomes[3].offset == 106 && outcomes[3].written == 0);
    CHECK(outcomes[3].first.kind == LARBOARDYUZU_UNDEFINED && outcomes[3].first.offset == 106);
    CHECK(larboardyuzu_parser_byte(&parser, 0xF0, 12, message, size, &outcome) == LARBOARDYUZU_DONE);
    CHECK(larboardyuzu_parser_end(&parser, &line) == LARBOARDYUZU_DONE);
    CHECK(line.kind == LARBOARDYUZU_OPEN_EXCLUSIVE && line.offset == 12);
    for (uint8_t byte = 0; byte < ROOM; byte++)
        CHECK(larboardyuzu_parser_byte(&parser, byte, 0, message, size, &outcome) == LARBOARDYUZU_DONE);
    CHECK(larboardyuzu_parser_byte(&parser, 0, 77, message, size, &outcome)
          == LARBOARDYUZU_EXCLUSIVE_TOO_LONG);
    CHECK(outcome.written == 0 && outcome.offset == 77 && outcome.first.kind == LARBOARDYUZU_NO_LINE);
    CHECK(larboardyuzu_parser_end(&parser, &line) == LARBOARDYUZU_NOTHING);
    larboardyuzu_parser_close(&parser);
    CHECK(!parser.is_open);
}

/* ---- USB-MIDI events. */

static void usb_statuses(void)
{
    static const uint8_t stream[] = { 0xF0, 1, 2, 3, 4, 0xF7 };
    static const uint8_t reserved[] = { 0x31, 0, 0, 0 }, clock_event[] = { 0x3F, 0xF8, 0, 0 };
    larboardyuzu_usb usb = LARBOARDYUZU_CLOSED;
    larboardyuzu_outcome outcome;
    larboardyuzu_line line = { 7, 7 };
    larboardyuzu_carried carried;
    uint8_t events[LARBOARDYUZU_USB_SIZE(ROOM)];

    CHECK(larboardyuzu_usb_byte(&usb, 0xF8, 0, events, sizeof events, &outcome)
          == LARBOARDYUZU_HANDLE_CLOSED);
    CHECK(larboardyuzu_usb_open(&usb, 16, ROOM) == LARBOARDYUZU_BAD_GROUP);
    CHECK(larboardyuzu_usb_open(&usb, 3, 1048577) == LARBOARDYUZU_BAD_ROOM);
    CHECK(larboardyuzu_usb_open(&usb, 3, ROOM) == LARBOARDYUZU_DONE);
    CHECK(larboardyuzu_usb_open(&usb, 3, ROOM) == LARBOARDYUZU_ALREADY_OPEN);
    CHECK(larboardyuzu_usb_byte(&usb, 0xF8, 0, events, sizeof events - 1, &outcome)
          == LARBOARDYUZU_SMALL_BUFFER);
    CHECK(outcome.written == 0 && outcome.need == sizeof events);
    for (size_t i = 0; i < sizeof stream; i++) {
        CHECK(larboardyuzu_usb_byte(&usb, stream[i], i, events, sizeof events, &outcome)
              == LARBOARDYUZU_DONE);
        CHECK(outcome.written == (i + 1 < sizeof stream ? 0u : 8u) && outcome.offset == i);
    }
    /* an exclusive starts or continues: 4; it ends with three bytes: 7 */
    CHECK(!memcmp(events, "\x34\xF0\1\2\x37\3\4\xF7", 8));
    CHECK(larboardyuzu_usb_end(&usb, &line) == LARBOARDYUZU_NOTHING && line.kind == 7);
    CHECK(larboardyuzu_usb_carried(reserved, 4, &carried) == LARBOARDYUZU_NOTHING);
    CHECK(larboardyuzu_usb_carried(clock_event, 3, &carried) == LARBOARDYUZU_BAD_SIZE);
    CHECK(larboardyuzu_usb_carried(NULL, 0, &carried) == LARBOARDYUZU_BAD_SIZE);
    CHECK(larboardyuzu_usb_carried(clock_event, 4, &carried) == LARBOARDYUZU_DONE);
    CHECK(carried.cable == 3 && carried.length == 1 && carried.bytes[0] == 0xF8);
    larboardyuzu_usb_close(&usb);
    CHECK(!usb.is_open);
}

/* ---- 8-bit exclusives. */

static void sysex8_statuses(void)
{
    static const uint32_t first[] = { 0x501201A0, 0, 0, 0 }, last[] = { 0x503201A1, 0, 0, 0 };
    static const uint32_t other[] = { 0x501202B0, 0, 0, 0 }, mixed[] = { 0x50810000, 0, 0, 0 };
    larboardyuzu_sysex8 sysex8 = LARBOARDYUZU_CLOSED;
    larboardyuzu_part part;
    uint8_t bytes[16];
    uint64_t offset = 7;

    CHECK(larboardyuzu_sysex8_packet(&sysex8, first, 4, 0, bytes, 16, &part) == LARBOARDYUZU_HANDLE_CLOSED);
    CHECK(larboardyuzu_sysex8_open(&sysex8, 0, 16) == LARBOARDYUZU_BAD_STREAMS);
    CHECK(larboardyuzu_sysex8_open(&sysex8, 65, 16) == LARBOARDYUZU_BAD_STREAMS);
    CHECK(larboardyuzu_sysex8_open(&sysex8, 1, 12) == LARBOARDYUZU_BAD_ROOM);
    CHECK(larboardyuzu_sysex8_open(&sysex8, 1, 16) == LARBOARDYUZU_DONE);
    CHECK(larboardyuzu_sysex8_open(&sysex8, 1, 16) == LARBOARDYUZU_ALREADY_OPEN);
    CHECK(larboardyuzu_sysex8_packet(&sysex8, first, 4, 0, bytes, 15, &part) == LARBOARDYUZU_SMALL_BUFFER);
    CHECK(part.written == 0 && part.need == 16);
    /* the buffer is tested before the words */
    CHECK(larboardyuzu_sysex8_packet(&sysex8, first, 3, 0, bytes, 15, &part) == LARBOARDYUZU_SMALL_BUFFER);
    CHECK(larboardyuzu_sysex8_packet(&sysex8, first, 3, 0, bytes, 16, &part)
          == LARBOARDYUZU_BAD_WORD_COUNT);
    CHECK(larboardyuzu_sysex8_packet(&sysex8, mixed, 4, 0, bytes, 16, &part) == LARBOARDYUZU_DONE);
    CHECK(part.answer == LARBOARDYUZU_JOINED_OTHER);
    CHECK(larboardyuzu_sysex8_packet(&sysex8, last, 4, 0, bytes, 16, &part) == LARBOARDYUZU_DONE);
    CHECK(part.answer == LARBOARDYUZU_JOINED_STRAY && part.stream == 1 && part.group == 0);
    CHECK(larboardyuzu_sysex8_packet(&sysex8, first, 4, 32, bytes, 16, &part) == LARBOARDYUZU_DONE);
    CHECK(part.answer == LARBOARDYUZU_JOINED_HELD);
    CHECK(larboardyuzu_sysex8_begun(&sysex8, 0, 1, &offset) == LARBOARDYUZU_DONE && offset == 32);
    CHECK(larboardyuzu_sysex8_begun(&sysex8, 0, 2, &offset) == LARBOARDYUZU_NOTHING && offset == 32);
    CHECK(larboardyuzu_sysex8_begun(&sysex8, 16, 1, &offset) == LARBOARDYUZU_BAD_GROUP && offset == 32);
    CHECK(larboardyuzu_sysex8_packet(&sysex8, other, 4, 0, bytes, 16, &part) == LARBOARDYUZU_DONE);
    CHECK(part.answer == LARBOARDYUZU_JOINED_FULL && part.stream == 2);
    CHECK(larboardyuzu_sysex8_packet(&sysex8, first, 4, 48, bytes, 16, &part) == LARBOARDYUZU_DONE);
    CHECK(part.answer == LARBOARDYUZU_JOINED_RESTARTED && part.cut_at == 32);
    CHECK(larboardyuzu_sysex8_packet(&sysex8, last, 4, 64, bytes, 16, &part) == LARBOARDYUZU_DONE);
    CHECK(part.answer == LARBOARDYUZU_JOINED_WHOLE && part.written == 2 && !memcmp(bytes, "\xA0\xA1", 2));
    larboardyuzu_sysex8_close(&sysex8);
    CHECK(!sysex8.is_open);
}

/* ---- The running state. */

static larboardyuzu_fact facts[8];
static size_t written, need;

/* The facts of a channel, or of none; what lies after them is unchanged. */
static uint32_t ask(const larboardyuzu_state *state, uint8_t group, uint8_t channel, size_t size)
{
    uint32_t status;

    memset(facts, 0x55, sizeof facts);
    written = need = 7;
    status = larboardyuzu_state_facts(state, group, channel, facts, size, &written, &need);
    CHECK(written <= size && (status == LARBOARDYUZU_DONE || written == 0));
    CHECK((status == LARBOARDYUZU_SMALL_BUFFER) == (need != 0));
    for (size_t i = written; i < COUNT(facts); i++)
        CHECK(facts[i].kind == 0x55);
    return status;
}

static void state_statuses(void)
{
    static const uint32_t on[] = { 0x41923C00, 0xC9240000 }, clock_packet[] = { 0x11F80000 };
    static const uint32_t high_bit[] = { 0x20903C80 }, start[] = { 0x31160102, 0x03040506 };
    static const uint32_t more[] = { 0x31260102, 0x03040506 }, end[] = { 0x31310700, 0 };
    larboardyuzu_state state = LARBOARDYUZU_CLOSED;

    CHECK(larboardyuzu_state_packet(&state, on, 2) == LARBOARDYUZU_HANDLE_CLOSED);
    CHECK(larboardyuzu_state_reset(&state) == LARBOARDYUZU_HANDLE_CLOSED);
    CHECK(ask(&state, 16, 16, 4) == LARBOARDYUZU_HANDLE_CLOSED);
    CHECK(larboardyuzu_state_open(&state, 5, 8, 8, 0) == LARBOARDYUZU_BAD_ROOM && !state.is_open);
    CHECK(larboardyuzu_state_open(&state, ROOM, LARBOARDYUZU_MOST_NOTES + 1, 8, 0)
          == LARBOARDYUZU_BAD_ROOM);
    CHECK(larboardyuzu_state_open(&state, ROOM, 8, LARBOARDYUZU_MOST_PARAMS + 1, 0)
          == LARBOARDYUZU_BAD_ROOM);
    CHECK(larboardyuzu_state_open(&state, ROOM, 8, 8, LARBOARDYUZU_PAIRED) == LARBOARDYUZU_BAD_FLAGS);
    CHECK(larboardyuzu_state_open(&state, ROOM, 8, 8, 0) == LARBOARDYUZU_DONE);
    CHECK(larboardyuzu_state_open(&state, ROOM, 8, 8, 0) == LARBOARDYUZU_ALREADY_OPEN);
    CHECK(ask(&state, 0, 0, 0) == LARBOARDYUZU_DONE && written == 0);
    CHECK(larboardyuzu_state_packet(&state, on, 1) == LARBOARDYUZU_BAD_WORD_COUNT);
    CHECK(larboardyuzu_state_packet(&state, high_bit, 1) == LARBOARDYUZU_HIGH_BIT);
    CHECK(larboardyuzu_state_packet(&state, on, 2) == LARBOARDYUZU_DONE);
    CHECK(larboardyuzu_state_packet(&state, on, 2) == LARBOARDYUZU_DONE);
    CHECK(larboardyuzu_state_packet(&state, clock_packet, 1) == LARBOARDYUZU_DONE);
    /* one exclusive that is too long, and one that is counted */
    CHECK(larboardyuzu_state_packet(&state, start, 2) == LARBOARDYUZU_DONE);
    CHECK(larboardyuzu_state_packet(&state, more, 2) == LARBOARDYUZU_EXCLUSIVE_TOO_LONG);
    CHECK(larboardyuzu_state_packet(&state, start, 2) == LARBOARDYUZU_DONE);
    CHECK(larboardyuzu_state_packet(&state, end, 2) == LARBOARDYUZU_DONE);
    CHECK(ask(&state, 16, 2, 8) == LARBOARDYUZU_BAD_GROUP && written == 0);
    CHECK(ask(&state, 1, 16, 8) == LARBOARDYUZU_BAD_CHANNEL && written == 0);
    CHECK(ask(&state, 1, 254, 8) == LARBOARDYUZU_BAD_CHANNEL);
    CHECK(ask(&state, 255, LARBOARDYUZU_NO_CHANNEL, 8) == LARBOARDYUZU_BAD_GROUP);
    CHECK(ask(&state, 1, 2, 1) == LARBOARDYUZU_SMALL_BUFFER && need == 2);
    CHECK(larboardyuzu_state_facts(&state, 1, 2, NULL, 0, &written, &need) == LARBOARDYUZU_SMALL_BUFFER);
    CHECK(ask(&state, 1, 2, 8) == LARBOARDYUZU_DONE && written == 2);
    CHECK(facts[0].kind == LARBOARDYUZU_FACT_ON && facts[0].group == 1 && facts[0].channel == 2);
    CHECK(facts[0].number == 0x3C && facts[0].value == 0xC924);
    CHECK(ask(&state, 1, 3, 0) == LARBOARDYUZU_DONE && ask(&state, 0, 2, 0) == LARBOARDYUZU_DONE);
    CHECK(ask(&state, 1, LARBOARDYUZU_NO_CHANNEL, 1) == LARBOARDYUZU_SMALL_BUFFER && need == 2);
    CHECK(ask(&state, 1, LARBOARDYUZU_NO_CHANNEL, 2) == LARBOARDYUZU_DONE && written == 2);
    CHECK(facts[0].kind == LARBOARDYUZU_FACT_SYSTEM && facts[0].group == 1 && facts[0].count == 1);
    CHECK(facts[1].kind == LARBOARDYUZU_FACT_REAL_TIME && facts[1].group == 1 && facts[1].count == 1);
    CHECK(ask(&state, 0, LARBOARDYUZU_NO_CHANNEL, 0) == LARBOARDYUZU_DONE);
    larboardyuzu_state_close(&state);
    CHECK(!state.is_open);
}

/* A state of bytes takes no packets, and one of packets no bytes. */
static void state_of_bytes(void)
{
    static const uint32_t on[] = { 0x41923C00, 0xC9240000 };
    static const uint8_t stream[] = { 0x92, 0x3C, 0x64, 0xF8, 0xF0, 0x01, 0xF7 };
    larboardyuzu_state bytes = LARBOARDYUZU_CLOSED, packets = LARBOARDYUZU_CLOSED;
    larboardyuzu_block block;

    CHECK(larboardyuzu_state_byte(&bytes, 0) == LARBOARDYUZU_HANDLE_CLOSED);
    CHECK(larboardyuzu_state_open(&bytes, 1048577, 8, 8, LARBOARDYUZU_OF_BYTES) == LARBOARDYUZU_BAD_ROOM);
    CHECK(larboardyuzu_state_open(&bytes, ROOM, 8, 8, LARBOARDYUZU_OF_BYTES) == LARBOARDYUZU_DONE);
    CHECK(larboardyuzu_state_open(&packets, ROOM, 8, 8, 0) == LARBOARDYUZU_DONE);
    CHECK(larboardyuzu_state_packet(&bytes, on, 2) == LARBOARDYUZU_OTHER_KIND);
    CHECK(larboardyuzu_state_packets(&bytes, on, 2, &block) == LARBOARDYUZU_OTHER_KIND && block.taken == 0);
    CHECK(larboardyuzu_state_byte(&packets, 0x92) == LARBOARDYUZU_OTHER_KIND);
    CHECK(larboardyuzu_state_bytes(&packets, stream, 1, &block) == LARBOARDYUZU_OTHER_KIND
          && block.taken == 0);
    for (size_t i = 0; i < sizeof stream; i++)
        CHECK(larboardyuzu_state_byte(&bytes, stream[i]) == LARBOARDYUZU_DONE);
    CHECK(ask(&bytes, 0, 2, 8) == LARBOARDYUZU_DONE && written == 1);
    CHECK(facts[0].kind == LARBOARDYUZU_FACT_ON && facts[0].channel == 2 && facts[0].number == 0x3C);
    CHECK(facts[0].value == 100 && facts[0].group == 0);
    CHECK(ask(&bytes, 0, LARBOARDYUZU_NO_CHANNEL, 8) == LARBOARDYUZU_DONE && written == 2);
    CHECK(facts[0].kind == LARBOARDYUZU_FACT_SYSTEM && facts[0].count == 1);
    CHECK(facts[1].kind == LARBOARDYUZU_FACT_REAL_TIME && facts[1].count == 1);
    CHECK(ask(&bytes, 1, 2, 8) == LARBOARDYUZU_DONE && written == 0);
    CHECK(larboardyuzu_state_byte(&bytes, 0xF0) == LARBOARDYUZU_DONE);
    for (uint8_t byte = 0; byte < ROOM; byte++)
        CHECK(larboardyuzu_state_byte(&bytes, byte) == LARBOARDYUZU_DONE);
    CHECK(larboardyuzu_state_byte(&bytes, 1) == LARBOARDYUZU_EXCLUSIVE_TOO_LONG);
    CHECK(ask(&bytes, 0, LARBOARDYUZU_NO_CHANNEL, 8) == LARBOARDYUZU_DONE && facts[0].count == 1);
    larboardyuzu_state_close(&bytes);
    larboardyuzu_state_close(&packets);
    CHECK(!bytes.is_open && !packets.is_open);
}

/* A full list refuses what adds to it, and other messages go on. */
static void full_state(void)
{
    static const uint32_t on[] = { 0x40923C00, 0xC9240000 }, other_channel[] = { 0x40933C00, 0xC9240000 };
    static const uint32_t set[] = { 0x40220001, 7 }, again[] = { 0x40220001, 9 },
                          next[] = { 0x40220002, 7 };
    static const uint32_t assignable[] = { 0x40320002, 7 }, control[] = { 0x40B20700, 5 };
    larboardyuzu_state state = LARBOARDYUZU_CLOSED;

    CHECK(larboardyuzu_state_open(&state, ROOM, 1, 1, 0) == LARBOARDYUZU_DONE);
    CHECK(larboardyuzu_state_packet(&state, on, 2) == LARBOARDYUZU_DONE);
    CHECK(larboardyuzu_state_packet(&state, on, 2) == LARBOARDYUZU_STATE_FULL);
    CHECK(larboardyuzu_state_packet(&state, other_channel, 2) == LARBOARDYUZU_DONE);
    CHECK(larboardyuzu_state_packet(&state, set, 2) == LARBOARDYUZU_DONE);
    CHECK(larboardyuzu_state_packet(&state, next, 2) == LARBOARDYUZU_STATE_FULL);
    CHECK(larboardyuzu_state_packet(&state, again, 2) == LARBOARDYUZU_DONE);
    CHECK(larboardyuzu_state_packet(&state, assignable, 2) == LARBOARDYUZU_DONE);
    CHECK(larboardyuzu_state_packet(&state, control, 2) == LARBOARDYUZU_DONE);
    CHECK(ask(&state, 0, 2, 8) == LARBOARDYUZU_DONE && written == 4);
    CHECK(facts[0].kind == LARBOARDYUZU_FACT_ON && facts[0].channel == 2);
    CHECK(facts[1].kind == LARBOARDYUZU_FACT_CONTROL && facts[1].number == 7 && facts[1].value == 5);
    CHECK(facts[2].kind == LARBOARDYUZU_FACT_REGISTERED && facts[2].number == 1 && facts[2].value == 9);
    CHECK(facts[3].kind == LARBOARDYUZU_FACT_ASSIGNABLE && facts[3].number == 2 && facts[3].value == 7);
    CHECK(ask(&state, 0, 3, 8) == LARBOARDYUZU_DONE && written == 1);
    CHECK(facts[0].kind == LARBOARDYUZU_FACT_ON && facts[0].channel == 3);
    larboardyuzu_state_close(&state);
}

/* No room at all: only what has one place goes on. */
static void full_stream(void)
{
    static const uint8_t control[] = { 0xB2, 0x07, 0x05 };
    static const uint8_t on[] = { 0x92, 0x3C, 0x64 },
                         entry[] = { 0xB2, 0x65, 0x00, 0x64, 0x00, 0x06, 0x02 };
    larboardyuzu_state state = LARBOARDYUZU_CLOSED;
    larboardyuzu_block block;

    CHECK(larboardyuzu_state_open(&state, ROOM, 0, 0, LARBOARDYUZU_OF_BYTES) == LARBOARDYUZU_DONE);
    for (size_t i = 0; i < sizeof on; i++)
        CHECK(larboardyuzu_state_byte(&state, on[i])
              == (i == 2 ? LARBOARDYUZU_STATE_FULL : LARBOARDYUZU_DONE));
    CHECK(larboardyuzu_state_bytes(&state, entry, sizeof entry, &block) == LARBOARDYUZU_STATE_FULL);
    CHECK(block.taken == sizeof entry && block.refused == 1 && block.written == 0 && block.items == 0);
    CHECK(larboardyuzu_state_bytes(&state, control, sizeof control, &block) == LARBOARDYUZU_DONE);
    CHECK(block.taken == sizeof control && block.refused == 0);
    CHECK(ask(&state, 0, 2, 2) == LARBOARDYUZU_DONE && written == 1);
    CHECK(facts[0].kind == LARBOARDYUZU_FACT_CONTROL && facts[0].channel == 2 && facts[0].value == 5);
    larboardyuzu_state_close(&state);
}

/* One fact of every kind, in the order of `show --state`. */
static void every_fact(void)
{
    static const uint32_t words[] = {
        0x43923C00, 0xC9240000, /* Note On */
        0x43823C00, 0xC9240000, /* Note Off */
        0x43B27B00, 0x00000000, /* All Notes Off */
        0x43A23C00, 0x80000000, /* Poly Pressure */
        0x43B20700, 0x00000005, /* a controller */
        0x43D20000, 0x80000000, /* Channel Pressure */
        0x43E20000, 0x80000001, /* Pitch Bend */
        0x43C20001, 0x05000102, /* Program Change with a bank */
        0x43220001, 0x00000007, /* a registered controller */
        0x43320002, 0x00000009, /* an assignable controller */
        0x13F10100,             /* MIDI Time Code */
        0x13F80000,             /* Timing Clock */
    };
    bool is_seen[12] = { false };
    larboardyuzu_fact all[32];
    larboardyuzu_state state = LARBOARDYUZU_CLOSED;
    larboardyuzu_block block;

    CHECK(larboardyuzu_state_open(&state, ROOM, 8, 8, 0) == LARBOARDYUZU_DONE);
    CHECK(larboardyuzu_state_packets(&state, words, COUNT(words), &block) == LARBOARDYUZU_DONE);
    CHECK(block.taken == COUNT(words) && block.refused == 0 && block.need == 0 && block.need_items == 0);
    for (unsigned half = 0; half < 2; half++) {
        CHECK(larboardyuzu_state_facts(&state, 3, half == 0 ? 2 : LARBOARDYUZU_NO_CHANNEL, all, COUNT(all),
                                       &written, &need)
              == LARBOARDYUZU_DONE);
        for (size_t i = 0; i < written; i++) {
            CHECK(all[i].kind < COUNT(is_seen) && all[i].group == 3);
            is_seen[all[i].kind] = true;
            CHECK(half == 1 || all[i].channel == 2);
        }
    }
    for (size_t i = 0; i < COUNT(is_seen); i++)
        CHECK(is_seen[i]);
    larboardyuzu_state_close(&state);
}

/* ---- A handle of another kind. */

static void other_kind(void)
{
    larboardyuzu_parser parser = LARBOARDYUZU_CLOSED;
    larboardyuzu_usb *usb = (larboardyuzu_usb *)&parser;
    larboardyuzu_sysex8 *sysex8 = (larboardyuzu_sysex8 *)&parser;
    larboardyuzu_state *state = (larboardyuzu_state *)&parser;
    larboardyuzu_outcome outcome;
    larboardyuzu_part part;
    larboardyuzu_line line = { 7, 7 };
    uint32_t words[] = { 0 };
    uint8_t bytes[64];

    CHECK(larboardyuzu_parser_open(&parser, ROOM) == LARBOARDYUZU_DONE);
    CHECK(larboardyuzu_usb_byte(usb, 0, 0, bytes, 64, &outcome) == LARBOARDYUZU_OTHER_KIND);
    CHECK(outcome.need == 0 && outcome.written == 0 && outcome.first.kind == LARBOARDYUZU_NO_LINE);
    CHECK(larboardyuzu_usb_end(usb, &line) == LARBOARDYUZU_OTHER_KIND && line.kind == 7);
    CHECK(larboardyuzu_usb_open(usb, 0, ROOM) == LARBOARDYUZU_ALREADY_OPEN);
    CHECK(larboardyuzu_sysex8_packet(sysex8, words, 1, 0, bytes, 64, &part) == LARBOARDYUZU_OTHER_KIND);
    CHECK(part.written == 0 && part.answer == LARBOARDYUZU_JOINED_OTHER);
    CHECK(larboardyuzu_state_packet(state, words, 1) == LARBOARDYUZU_OTHER_KIND);
    CHECK(ask(state, 0, 0, 1) == LARBOARDYUZU_OTHER_KIND);
    CHECK(larboardyuzu_state_reset(state) == LARBOARDYUZU_OTHER_KIND);
    CHECK(larboardyuzu_usb_reset(usb) == LARBOARDYUZU_OTHER_KIND);
    CHECK(larboardyuzu_sysex8_reset(sysex8) == LARBOARDYUZU_OTHER_KIND);
    CHECK(larboardyuzu_parser_end(&parser, &line) == LARBOARDYUZU_NOTHING);
    larboardyuzu_parser_close(&parser);
}

int main(void)
{
    parser_statuses();
    usb_statuses();
    sysex8_statuses();
    state_statuses();
    state_of_bytes();
    full_state();
    full_stream();
    every_fact();
    other_kind();
    printf("readers: ok\n");
    return 0;
}
