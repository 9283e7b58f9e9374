/* A device on a board: what it opens, one message through each, and how much of the heap's block and of the
 * stack that took. It is a USB-MIDI 1.0 device of one cable, with WITH_ENDPOINT or WITH_UP one that has
 * that kind of handle, too. board.ld gives it its memory. */
#include "larboardyuzu.h"
#include "own_heap.h"
#include "setup.h"

enum {
    ROOM = 128,
    PAINT = 0xA5
};

void put_text(const char *text, size_t size);
void power_off(void);
void bare_main(void);
extern unsigned char stack_base[], stack_top[];

static larboardyuzu_down down;
static larboardyuzu_usb usb;
static larboardyuzu_parser parser;
static uint8_t bytes[LARBOARDYUZU_DOWN_SIZE(ROOM)], events[LARBOARDYUZU_USB_SIZE(ROOM)];
static const uint32_t note[] = { 0x40903C00, 0xC9240000 };

static void put_number(size_t number)
{
    char digits[20];
    size_t at = sizeof digits;

    do {
        digits[--at] = (char)('0' + number % 10);
        number /= 10;
    } while (number > 0);
    put_text(digits + at, sizeof digits - at);
}

static bool translates(void)
{
    larboardyuzu_piece piece;
    larboardyuzu_outcome outcome;
    size_t written = 0, parsed = 0;

    if (larboardyuzu_down_open(&down, ROOM, 0) || larboardyuzu_usb_open(&usb, 0, ROOM)
        || larboardyuzu_parser_open(&parser, ROOM)
        || larboardyuzu_down_packet(&down, note, 2, 0, bytes, sizeof bytes, &piece) || piece.written != 3)
        return false;
    for (size_t i = 0; i < piece.written; i++) {
        if (larboardyuzu_usb_byte(&usb, bytes[i], 0, events, sizeof events, &outcome))
            return false;
        written += outcome.written;
        if (larboardyuzu_parser_byte(&parser, bytes[i], 0, events, sizeof events, &outcome))
            return false;
        parsed += outcome.written;
    }
    return written == 4 && parsed == 3;
}

#if defined(WITH_ENDPOINT)
static bool has_more(void)
{
    static larboardyuzu_endpoint endpoint;
    static uint32_t reply[LARBOARDYUZU_MOST_REPLY_WORDS];
    static const uint32_t discovery[] = { 0xF0000101, 0x1F, 0, 0 };
    larboardyuzu_replies replies;
    uint8_t rule;

    return !larboardyuzu_endpoint_open(&endpoint, (const uint8_t *)setup, sizeof setup - 1, ROOM, &rule)
           && !larboardyuzu_endpoint_packet(&endpoint, discovery, 4, 0, reply, LARBOARDYUZU_MOST_REPLY_WORDS,
                                            &replies)
           && replies.written > 0;
}
#elif defined(WITH_UP)
static bool has_more(void)
{
    static larboardyuzu_up up;
    static uint32_t words[LARBOARDYUZU_UP_SIZE(ROOM)];
    larboardyuzu_outcome outcome;

    return !larboardyuzu_up_open(&up, 0, ROOM, 0)
           && !larboardyuzu_up_byte(&up, 0xF8, 0, words, LARBOARDYUZU_UP_SIZE(ROOM), &outcome)
           && outcome.written == 1;
}
#else
static bool has_more(void)
{
    return true;
}
#endif

void bare_main(void)
{
    const uintptr_t here = (uintptr_t)__builtin_frame_address(0) - 256; /* below what this function has */
    unsigned char *at;

    for (at = stack_base; (uintptr_t)at < here; at++)
        *(volatile unsigned char *)at = PAINT;
    if (translates() && has_more()) {
        put_text("board: ok, ", 11);
        put_number(own_heap_most());
        put_text(" of the block, ", 15);
        for (at = stack_base; at < stack_top && *at == PAINT; at++)
            continue;
        put_number((size_t)(stack_top - at));
        put_text(" of the stack\n", 14);
    } else {
        put_text("board: no\n", 10);
    }
    power_off();
}
