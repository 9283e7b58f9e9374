/* The seven kinds of handles, and random input for them. */
#include "subjects.h"
#include "check.h"
#include "setup.h"

#include <string.h>

/* A part of what may be null. */
#define PART(at, name) ((at) != NULL ? (at)->name : NULL)

/* ---- Down. */

static size_t most_down(uint32_t room)
{
    return larboardyuzu_down_size(room);
}

static uint32_t open_down(handle *it, uint32_t room, uint32_t flags)
{
    return larboardyuzu_down_open(&it->down, room, flags);
}

static uint32_t one_down(handle *it, input in, size_t count, uint64_t offset, places *out, size_t size,
                         items *item)
{
    return larboardyuzu_down_packet(&it->down, in.words, count, offset, PART(out, bytes), size,
                                    PART(item, pieces));
}

static uint32_t many_down(handle *it, input in, size_t count, uint64_t offset, places *out, size_t size,
                          items *all, size_t item_count, larboardyuzu_block *block)
{
    return larboardyuzu_down_packets(&it->down, in.words, count, offset, PART(out, bytes), size,
                                     PART(all, pieces), item_count, block);
}

static bool reads_same_down(const handle *a, const handle *b)
{
    for (uint8_t group = 0; group < 18; group++) {
        uint64_t one = 7, other = 7;
        if (larboardyuzu_down_begun(&a->down, group, &one)
                != larboardyuzu_down_begun(&b->down, group, &other)
            || one != other)
            return false;
    }
    return true;
}

static uint32_t reset_down(handle *it)
{
    return larboardyuzu_down_reset(&it->down);
}

static void close_down(handle *it)
{
    larboardyuzu_down_close(&it->down);
}

/* ---- Up, the parser, and USB-MIDI events: bytes with outcomes. */

static bool is_same_line(const larboardyuzu_line *a, const larboardyuzu_line *b)
{
    return a->offset == b->offset && a->kind == b->kind;
}

static size_t most_up(uint32_t room)
{
    return larboardyuzu_up_size(room);
}

static uint32_t open_up(handle *it, uint32_t room, uint32_t flags)
{
    return larboardyuzu_up_open(&it->up, 2, room, flags);
}

static uint32_t one_up(handle *it, input in, size_t count, uint64_t offset, places *out, size_t size,
                       items *item)
{
    CHECK(count == 1);
    return larboardyuzu_up_byte(&it->up, in.bytes[0], offset, PART(out, words), size, PART(item, outcomes));
}

static uint32_t many_up(handle *it, input in, size_t count, uint64_t offset, places *out, size_t size,
                        items *all, size_t item_count, larboardyuzu_block *block)
{
    return larboardyuzu_up_bytes(&it->up, in.bytes, count, offset, PART(out, words), size,
                                 PART(all, outcomes), item_count, block);
}

static bool reads_same_up(const handle *a, const handle *b)
{
    larboardyuzu_line one = { 7, 7 }, other = { 7, 7 };
    return larboardyuzu_up_end(&a->up, &one) == larboardyuzu_up_end(&b->up, &other)
           && is_same_line(&one, &other);
}

static uint32_t reset_up(handle *it)
{
    return larboardyuzu_up_reset(&it->up);
}

static void close_up(handle *it)
{
    larboardyuzu_up_close(&it->up);
}

static size_t most_parser(uint32_t room)
{
    return larboardyuzu_parser_size(room);
}

static uint32_t open_parser(handle *it, uint32_t room, uint32_t flags)
{
    (void)flags;
    return larboardyuzu_parser_open(&it->parser, room);
}

static uint32_t one_parser(handle *it, input in, size_t count, uint64_t offset, places *out, size_t size,
                           items *item)
{
    CHECK(count == 1);
    return larboardyuzu_parser_byte(&it->parser, in.bytes[0], offset, PART(out, bytes), size,
                                    PART(item, outcomes));
}

static uint32_t many_parser(handle *it, input in, size_t count, uint64_t offset, places *out, size_t size,
                            items *all, size_t item_count, larboardyuzu_block *block)
{
    return larboardyuzu_parser_bytes(&it->parser, in.bytes, count, offset, PART(out, bytes), size,
                                     PART(all, outcomes), item_count, block);
}

static bool reads_same_parser(const handle *a, const handle *b)
{
    larboardyuzu_line one = { 7, 7 }, other = { 7, 7 };
    return larboardyuzu_parser_end(&a->parser, &one) == larboardyuzu_parser_end(&b->parser, &other)
           && is_same_line(&one, &other);
}

static uint32_t reset_parser(handle *it)
{
    return larboardyuzu_parser_reset(&it->parser);
}

static void close_parser(handle *it)
{
    larboardyuzu_parser_close(&it->parser);
}

static size_t most_usb(uint32_t room)
{
    return larboardyuzu_usb_size(room);
}

static uint32_t open_usb(handle *it, uint32_t room, uint32_t flags)
{
    (void)flags;
    return larboardyuzu_usb_open(&it->usb, 11, room);
}

static uint32_t one_usb(handle *it, input in, size_t count, uint64_t offset, places *out, size_t size,
                        items *item)
{
    CHECK(count == 1);
    return larboardyuzu_usb_byte(&it->usb, in.bytes[0], offset, PART(out, bytes), size,
                                 PART(item, outcomes));
}

static uint32_t many_usb(handle *it, input in, size_t count, uint64_t offset, places *out, size_t size,
                         items *all, size_t item_count, larboardyuzu_block *block)
{
    return larboardyuzu_usb_bytes(&it->usb, in.bytes, count, offset, PART(out, bytes), size,
                                  PART(all, outcomes), item_count, block);
}

static bool reads_same_usb(const handle *a, const handle *b)
{
    larboardyuzu_line one = { 7, 7 }, other = { 7, 7 };
    return larboardyuzu_usb_end(&a->usb, &one) == larboardyuzu_usb_end(&b->usb, &other)
           && is_same_line(&one, &other);
}

static uint32_t reset_usb(handle *it)
{
    return larboardyuzu_usb_reset(&it->usb);
}

static void close_usb(handle *it)
{
    larboardyuzu_usb_close(&it->usb);
}

/* ---- The endpoint. */

static size_t most_endpoint(uint32_t room)
{
    (void)room;
    return LARBOARDYUZU_MOST_REPLY_WORDS;
}

static uint32_t open_endpoint(handle *it, uint32_t room, uint32_t flags)
{
    uint8_t rule = 0;
    (void)flags;
    return larboardyuzu_endpoint_open(&it->endpoint, (const uint8_t *)setup, sizeof setup - 1, room, &rule);
}

static uint32_t one_endpoint(handle *it, input in, size_t count, uint64_t offset, places *out, size_t size,
                             items *item)
{
    return larboardyuzu_endpoint_packet(&it->endpoint, in.words, count, offset, PART(out, words), size,
                                        PART(item, replies));
}

static uint32_t many_endpoint(handle *it, input in, size_t count, uint64_t offset, places *out, size_t size,
                              items *all, size_t item_count, larboardyuzu_block *block)
{
    return larboardyuzu_endpoint_packets(&it->endpoint, in.words, count, offset, PART(out, words), size,
                                         PART(all, replies), item_count, block);
}

static bool reads_same_endpoint(const handle *a, const handle *b)
{
    uint8_t protocol_a = 7, protocol_b = 7;
    uint32_t muid_a = 7, muid_b = 7;
    larboardyuzu_profile profile_a, profile_b;

    if (larboardyuzu_endpoint_protocol(&a->endpoint, &protocol_a)
            != larboardyuzu_endpoint_protocol(&b->endpoint, &protocol_b)
        || protocol_a != protocol_b
        || larboardyuzu_endpoint_muid(&a->endpoint, 0, &muid_a)
               != larboardyuzu_endpoint_muid(&b->endpoint, 0, &muid_b)
        || muid_a != muid_b
        || larboardyuzu_endpoint_profile(&a->endpoint, 0, &profile_a)
               != larboardyuzu_endpoint_profile(&b->endpoint, 0, &profile_b)
        || profile_a.is_on != profile_b.is_on)
        return false;
    for (uint8_t group = 0; group < 18; group++) {
        uint64_t one = 7, other = 7;
        if (larboardyuzu_endpoint_begun(&a->endpoint, group, &one)
                != larboardyuzu_endpoint_begun(&b->endpoint, group, &other)
            || one != other)
            return false;
    }
    return true;
}

static uint32_t reset_endpoint(handle *it)
{
    return larboardyuzu_endpoint_reset(&it->endpoint);
}

static void close_endpoint(handle *it)
{
    larboardyuzu_endpoint_close(&it->endpoint);
}

/* ---- 8-bit exclusives. */

static size_t most_sysex8(uint32_t room)
{
    return room < 13 ? 13 : room;
}

static uint32_t open_sysex8(handle *it, uint32_t room, uint32_t flags)
{
    (void)flags;
    return larboardyuzu_sysex8_open(&it->sysex8, 2, room < 13 ? 13 : room);
}

static uint32_t one_sysex8(handle *it, input in, size_t count, uint64_t offset, places *out, size_t size,
                           items *item)
{
    return larboardyuzu_sysex8_packet(&it->sysex8, in.words, count, offset, PART(out, bytes), size,
                                      PART(item, parts));
}

static uint32_t many_sysex8(handle *it, input in, size_t count, uint64_t offset, places *out, size_t size,
                            items *all, size_t item_count, larboardyuzu_block *block)
{
    return larboardyuzu_sysex8_packets(&it->sysex8, in.words, count, offset, PART(out, bytes), size,
                                       PART(all, parts), item_count, block);
}

static bool reads_same_sysex8(const handle *a, const handle *b)
{
    for (unsigned i = 0; i < 17 * 256; i++) {
        uint8_t group = (uint8_t)(i / 256), stream = (uint8_t)(i % 256);
        uint64_t one = 7, other = 7;
        if (larboardyuzu_sysex8_begun(&a->sysex8, group, stream, &one)
                != larboardyuzu_sysex8_begun(&b->sysex8, group, stream, &other)
            || one != other)
            return false;
    }
    return true;
}

static uint32_t reset_sysex8(handle *it)
{
    return larboardyuzu_sysex8_reset(&it->sysex8);
}

static void close_sysex8(handle *it)
{
    larboardyuzu_sysex8_close(&it->sysex8);
}

/* ---- The running state, of packets and of bytes. It keeps all that this input can add. */

enum {
    NOTES = 300,
    PARAMS = 60
};

static size_t most_state(uint32_t room)
{
    (void)room;
    return 0;
}

static uint32_t open_state(handle *it, uint32_t room, uint32_t flags)
{
    return larboardyuzu_state_open(&it->state, room, NOTES, PARAMS, flags);
}

static uint32_t open_state_of_bytes(handle *it, uint32_t room, uint32_t flags)
{
    return larboardyuzu_state_open(&it->state, room, NOTES, PARAMS, flags | LARBOARDYUZU_OF_BYTES);
}

static uint32_t one_state(handle *it, input in, size_t count, uint64_t offset, places *out, size_t size,
                          items *item)
{
    (void)offset, (void)out, (void)size, (void)item;
    return larboardyuzu_state_packet(&it->state, in.words, count);
}

static uint32_t many_state(handle *it, input in, size_t count, uint64_t offset, places *out, size_t size,
                           items *all, size_t item_count, larboardyuzu_block *block)
{
    (void)offset, (void)out, (void)size, (void)all, (void)item_count;
    return larboardyuzu_state_packets(&it->state, in.words, count, block);
}

static uint32_t one_state_of_bytes(handle *it, input in, size_t count, uint64_t offset, places *out,
                                   size_t size, items *item)
{
    (void)offset, (void)out, (void)size, (void)item;
    CHECK(count == 1);
    return larboardyuzu_state_byte(&it->state, in.bytes[0]);
}

static uint32_t many_state_of_bytes(handle *it, input in, size_t count, uint64_t offset, places *out,
                                    size_t size, items *all, size_t item_count, larboardyuzu_block *block)
{
    (void)offset, (void)out, (void)size, (void)all, (void)item_count;
    return larboardyuzu_state_bytes(&it->state, in.bytes, count, block);
}

static bool is_same_fact(const larboardyuzu_fact *a, const larboardyuzu_fact *b)
{
    return a->count == b->count && a->value == b->value && a->kind == b->kind && a->group == b->group
           && a->channel == b->channel && a->number == b->number && a->bank == b->bank
           && a->bank_lsb == b->bank_lsb && a->has_bank == b->has_bank && a->has_value == b->has_value
           && a->is_loose == b->is_loose;
}

static bool reads_same_state(const handle *a, const handle *b)
{
    static larboardyuzu_fact one[NOTES + 2 * PARAMS + 300], other[NOTES + 2 * PARAMS + 300];

    for (unsigned i = 0; i < 16 * 17; i++) {
        uint8_t group = (uint8_t)(i / 17),
                channel = i % 17 == 16 ? LARBOARDYUZU_NO_CHANNEL : (uint8_t)(i % 17);
        size_t count = 7, count_of_other = 7, need = 7;
        uint32_t status =
            larboardyuzu_state_facts(&a->state, group, channel, one, COUNT(one), &count, &need);
        CHECK(status == LARBOARDYUZU_DONE || status == LARBOARDYUZU_HANDLE_CLOSED);
        if (larboardyuzu_state_facts(&b->state, group, channel, other, COUNT(other), &count_of_other, &need)
                != status
            || count != count_of_other)
            return false;
        for (size_t k = 0; status == LARBOARDYUZU_DONE && k < count; k++)
            if (!is_same_fact(&one[k], &other[k]))
                return false;
    }
    return true;
}

static uint32_t reset_state(handle *it)
{
    return larboardyuzu_state_reset(&it->state);
}

static void close_state(handle *it)
{
    larboardyuzu_state_close(&it->state);
}

/* ---- All of them. */

const subject subjects[SUBJECTS] = {
    { "down", true, true, true, 1, sizeof(larboardyuzu_piece), most_down, open_down, one_down, many_down,
      reads_same_down, reset_down, close_down, LARBOARDYUZU_COMPACT | LARBOARDYUZU_PAIRED },
    { "up", false, true, false, 4, sizeof(larboardyuzu_outcome), most_up, open_up, one_up, many_up,
      reads_same_up, reset_up, close_up, LARBOARDYUZU_PAIRED },
    { "parser", false, true, false, 1, sizeof(larboardyuzu_outcome), most_parser, open_parser, one_parser,
      many_parser, reads_same_parser, reset_parser, close_parser, 0 },
    { "usb", false, true, false, 1, sizeof(larboardyuzu_outcome), most_usb, open_usb, one_usb, many_usb,
      reads_same_usb, reset_usb, close_usb, 0 },
    { "endpoint", true, true, true, 4, sizeof(larboardyuzu_replies), most_endpoint, open_endpoint,
      one_endpoint, many_endpoint, reads_same_endpoint, reset_endpoint, close_endpoint, 0 },
    { "sysex8", true, true, true, 1, sizeof(larboardyuzu_part), most_sysex8, open_sysex8, one_sysex8,
      many_sysex8, reads_same_sysex8, reset_sysex8, close_sysex8, 0 },
    { "state", true, false, false, 1, 1, most_state, open_state, one_state, many_state, reads_same_state,
      reset_state, close_state, 0 },
    { "state of bytes", false, false, false, 1, 1, most_state, open_state_of_bytes, one_state_of_bytes,
      many_state_of_bytes, reads_same_state, reset_state, close_state, 0 },
};

static bool is_same_piece(const larboardyuzu_piece *a, const larboardyuzu_piece *b)
{
    return a->written == b->written && a->need == b->need && a->offset == b->offset && a->lane == b->lane
           && a->kind == b->kind && a->group == b->group;
}

static bool is_same_outcome(const larboardyuzu_outcome *a, const larboardyuzu_outcome *b)
{
    return a->written == b->written && a->need == b->need && a->offset == b->offset
           && is_same_line(&a->first, &b->first) && is_same_line(&a->second, &b->second);
}

static bool is_same_replies(const larboardyuzu_replies *a, const larboardyuzu_replies *b)
{
    return a->written == b->written && a->need == b->need && a->offset == b->offset && a->heard == b->heard
           && a->group == b->group && a->kind == b->kind;
}

static bool is_same_part(const larboardyuzu_part *a, const larboardyuzu_part *b)
{
    return a->written == b->written && a->need == b->need && a->cut_at == b->cut_at
           && a->answer == b->answer && a->group == b->group && a->stream == b->stream;
}

bool is_same_item(const subject *it, const items *a, size_t at, const items *b, size_t other)
{
    if (!it->has_buffers)
        return true;
    if (it->one == one_down)
        return is_same_piece(&a->pieces[at], &b->pieces[other]);
    if (it->one == one_endpoint)
        return is_same_replies(&a->replies[at], &b->replies[other]);
    if (it->one == one_sysex8)
        return is_same_part(&a->parts[at], &b->parts[other]);
    return is_same_outcome(&a->outcomes[at], &b->outcomes[other]);
}

/* (each item begins with how many places were written) */
size_t written_of(const subject *it, const items *all, size_t at)
{
    size_t written = 0;
    if (it->has_buffers)
        memcpy(&written, (const char *)all + at * it->item, sizeof written);
    return written;
}

bool says_something(const subject *it, const items *all, size_t at)
{
    const larboardyuzu_outcome *outcome = &all->outcomes[at];
    return it->has_buffers
           && (it->every_item || outcome->written > 0 || outcome->first.kind != LARBOARDYUZU_NO_LINE
               || outcome->second.kind != LARBOARDYUZU_NO_LINE);
}

/* ---- Random input (xorshift). */

uint32_t random_number(void)
{
    static uint32_t seed = 2463534242u;
    seed ^= seed << 13;
    seed ^= seed >> 17;
    seed ^= seed << 5;
    return seed;
}

/* Packets that have replies: discoveries (M2-104-UM, M2-101-UM), a profile that is switched, a protocol. */
static const uint32_t asked[][4] = {
    { 0xF0000101, 0x0000001F, 0, 0 },
    { 0xF010FF03, 0, 0, 0 },
    { 0xF0050100, 0, 0, 0 },
    { 0xF0050200, 0, 0, 0 },
};
static const uint32_t discovery[] = {
    0x30167E7F, 0x0D700205, 0x30260000, 0x007F7F7F, 0x30267F7D,
    0x00000100, 0x30260200, 0x01000000, 0x30360400, 0x02000000,
};
static const uint32_t profile_on[] = {
    0x30167E02, 0x0D220205, 0x30260000, 0x00670A0D, 0x3026097E, 0x00010100, 0x30320100, 0x00000000,
};
static const uint32_t invalidate[] = {
    0x30167E7F, 0x0D7E0205, 0x30260000, 0x007F7F7F, 0x30357F67, 0x0A0D0900,
};

/* A part of a conversation: how many words; 0 if it doesn't fit. */
static size_t put_conversation(uint32_t *words, size_t room)
{
    static const struct {
        const uint32_t *words;
        size_t count;
    } all[] = {
        { asked[0], 4 },
        { asked[1], 4 },
        { asked[2], 4 },
        { asked[3], 4 },
        { discovery, COUNT(discovery) },
        { profile_on, COUNT(profile_on) },
        { invalidate, COUNT(invalidate) },
    };
    size_t which = random_number() % COUNT(all);

    if (all[which].count > room)
        return 0;
    memcpy(words, all[which].words, all[which].count * sizeof words[0]);
    return all[which].count;
}

/* A packet of random bits, most of them without a high bit where a data byte stands: how many words. */
static size_t put_packet(uint32_t *words, size_t room)
{
    uint32_t first = random_number() & 0x7FFFFFFF;
    size_t count;

    if (random_number() % 3 > 0)
        first = (first & 0x00FF7F7F) | (random_number() % 5 + 1) << 28 | (random_number() % 3) << 24;
    if (first >> 28 == 2 || first >> 28 == 4)
        first &= 0xFFF1FF01 | (random_number() % 4 ? 0 : 0x7F7F); /* few channels, so that much comes again */
    if (first >> 28 == 3)
        first = (first & 0xFF30FFFF) | (random_number() % (random_number() % 20 ? 7 : 9)) << 16;
    if (first >> 28 == 5 && random_number() % 4 > 0)
        first = (first & 0xF13003FF) | (random_number() % 14 + 1) << 16;
    count = larboardyuzu_words_in_packet(first);
    if (count > room) {
        first = 0;
        count = 1;
    }
    words[0] = first;
    for (size_t i = 1; i < count; i++)
        words[i] = random_number() & (random_number() % 30 ? 0x7F7F7F7F : 0xFFFFFFFF);
    return count;
}

void random_words(uint32_t *words, size_t count)
{
    for (size_t at = 0; at < count;) {
        size_t put = random_number() % 20 == 0 ? put_conversation(words + at, count - at) : 0;
        at += put > 0 ? put : put_packet(words + at, count - at);
    }
}

void random_bytes(uint8_t *bytes, size_t count)
{
    static const uint8_t statuses[] = { 0x90, 0x80, 0xB1, 0xB1, 0xC2, 0xE0, 0xD0,
                                        0xF0, 0xF0, 0xF7, 0xF7, 0xF8, 0xF1, 0xF4 };
    for (size_t at = 0; at < count; at++)
        bytes[at] = random_number() % 5 ? (uint8_t)(random_number() >> 25)
                                        : statuses[random_number() % COUNT(statuses)];
}
