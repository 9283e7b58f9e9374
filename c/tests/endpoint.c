/* Every status of the endpoint, what is written with it, and what the handle holds after it. */
#include "check.h"
#include "larboardyuzu.h"
#include "broken_setups.h"

#include <string.h>

enum {
    ROOM = 64
};

static uint32_t reply[LARBOARDYUZU_MOST_REPLY_WORDS];

static uint32_t push(larboardyuzu_endpoint *endpoint, const uint32_t *words, size_t count,
                     larboardyuzu_replies *replies)
{
    memset(replies, 0x55, sizeof *replies);
    memset(reply, 0xAA, sizeof reply);
    return larboardyuzu_endpoint_packet(endpoint, words, count, 40, reply, COUNT(reply), replies);
}

static uint32_t open_with(larboardyuzu_endpoint *endpoint, const char *text, size_t size, uint8_t *rule)
{
    *rule = 77;
    return larboardyuzu_endpoint_open(endpoint, (const uint8_t *)text, size, ROOM, rule);
}

static void opened(void)
{
    static char longer[LARBOARDYUZU_MOST_SETUP_BYTES + 1];
    static const char no_table[] = "endpoint = 3\n";
    larboardyuzu_endpoint endpoint = LARBOARDYUZU_CLOSED;
    uint8_t rule;

    CHECK(open_with(&endpoint, "= 3", 3, &rule) == LARBOARDYUZU_SETUP_SYNTAX && !endpoint.is_open);
    CHECK(open_with(&endpoint, no_table, sizeof no_table - 1, &rule) == LARBOARDYUZU_SETUP_RULE
          && rule == 1);
    memset(longer, '#', sizeof longer);
    CHECK(open_with(&endpoint, longer, sizeof longer, &rule) == LARBOARDYUZU_SETUP_RULE && rule == 0);
    CHECK(open_with(&endpoint, setup, sizeof setup - 4, &rule) != LARBOARDYUZU_DONE && !endpoint.is_open);
    CHECK(larboardyuzu_endpoint_open(&endpoint, (const uint8_t *)setup, sizeof setup - 1, 5, &rule)
          == LARBOARDYUZU_BAD_ROOM);
    CHECK(open_with(&endpoint, setup, sizeof setup - 1, &rule) == LARBOARDYUZU_DONE && endpoint.is_open);
    CHECK(open_with(&endpoint, setup, sizeof setup - 1, &rule) == LARBOARDYUZU_ALREADY_OPEN
          && endpoint.is_open);
    larboardyuzu_endpoint_close(&endpoint);
    CHECK(!endpoint.is_open);
}

/* The number of the rule that a setup breaks. */
static void broken_rules(void)
{
    static char text[2 * sizeof setup];
    larboardyuzu_endpoint endpoint = LARBOARDYUZU_CLOSED;
    uint8_t rule;

    for (size_t i = 0; i < COUNT(broken_setups); i++) {
        CHECK(open_with(&endpoint, text, break_setup(i, text), &rule) == LARBOARDYUZU_SETUP_RULE);
        CHECK(rule == broken_setups[i].rule && !endpoint.is_open);
    }
}

static void closed(void)
{
    static const uint32_t discovery[] = { 0xF0000101, 0x00000001, 0, 0 };
    larboardyuzu_endpoint endpoint = LARBOARDYUZU_CLOSED;
    larboardyuzu_replies replies;
    larboardyuzu_profile profile;
    uint64_t offset;
    uint32_t muid;
    uint8_t protocol;

    CHECK(push(&endpoint, discovery, 4, &replies) == LARBOARDYUZU_HANDLE_CLOSED);
    CHECK(replies.written == 0 && replies.heard == LARBOARDYUZU_HEARD_NOTHING && reply[0] == 0xAAAAAAAA);
    CHECK(larboardyuzu_endpoint_protocol(&endpoint, &protocol) == LARBOARDYUZU_HANDLE_CLOSED);
    CHECK(larboardyuzu_endpoint_muid(&endpoint, 0, &muid) == LARBOARDYUZU_HANDLE_CLOSED);
    CHECK(larboardyuzu_endpoint_profile(&endpoint, 0, &profile) == LARBOARDYUZU_HANDLE_CLOSED);
    CHECK(larboardyuzu_endpoint_begun(&endpoint, 0, &offset) == LARBOARDYUZU_HANDLE_CLOSED);
    CHECK(larboardyuzu_endpoint_reset(&endpoint) == LARBOARDYUZU_HANDLE_CLOSED);
    larboardyuzu_endpoint_close(&endpoint);
}

/* A refused packet leaves an exclusive that is open. */
static void refused(larboardyuzu_endpoint *endpoint, const uint32_t *words, size_t count, uint32_t status)
{
    static const uint32_t start[] = { 0x30160102, 0x03040506 }, end[] = { 0x30310700, 0 };
    larboardyuzu_replies replies;
    uint64_t offset = 0;

    CHECK(push(endpoint, start, 2, &replies) == LARBOARDYUZU_DONE);
    CHECK(push(endpoint, words, count, &replies) == status);
    CHECK(replies.written == 0 && replies.heard == LARBOARDYUZU_HEARD_NOTHING);
    CHECK(replies.kind == LARBOARDYUZU_NO_LINE && reply[0] == 0xAAAAAAAA);
    CHECK(larboardyuzu_endpoint_begun(endpoint, 0, &offset) == LARBOARDYUZU_DONE && offset == 40);
    CHECK(push(endpoint, end, 2, &replies) == LARBOARDYUZU_DONE
          && replies.heard == LARBOARDYUZU_HEARD_NOT_CI);
    CHECK(replies.group == 0 && replies.written == 0);
}

static void packets(larboardyuzu_endpoint *endpoint)
{
    static const uint32_t request[] = { 0xF0050100, 0, 0, 0 }, high_bit[] = { 0x20903C80 };
    static const uint32_t too_many[] = { 0x30170102, 0x03040506 }, stray[] = { 0x32310700, 0 };
    larboardyuzu_replies replies;
    uint8_t protocol = 0;

    CHECK(larboardyuzu_endpoint_packet(endpoint, request, 4, 0, reply, COUNT(reply) - 1, &replies)
          == LARBOARDYUZU_SMALL_BUFFER);
    CHECK(replies.written == 0 && replies.need == COUNT(reply) && replies.group == 255);
    /* the buffer is tested before the words */
    CHECK(larboardyuzu_endpoint_packet(endpoint, request, 3, 0, reply, COUNT(reply) - 1, &replies)
          == LARBOARDYUZU_SMALL_BUFFER);
    CHECK(larboardyuzu_endpoint_protocol(endpoint, &protocol) == LARBOARDYUZU_DONE && protocol == 2);
    refused(endpoint, request, 3, LARBOARDYUZU_BAD_WORD_COUNT);
    refused(endpoint, request, 0, LARBOARDYUZU_BAD_WORD_COUNT);
    refused(endpoint, high_bit, 1, LARBOARDYUZU_HIGH_BIT);
    refused(endpoint, too_many, 2, LARBOARDYUZU_BAD_COUNT);
    CHECK(push(endpoint, stray, 2, &replies) == LARBOARDYUZU_DONE && replies.written == 0);
    CHECK(replies.kind == LARBOARDYUZU_STRAY_EXCLUSIVE && replies.group == 2 && replies.offset == 40);
    CHECK(push(endpoint, request, 4, &replies) == LARBOARDYUZU_DONE && replies.written == 4);
    CHECK(replies.heard == LARBOARDYUZU_HEARD_ANSWERED && replies.group == 255);
    CHECK(reply[0] == 0xF0060100 && reply[1] == 0 && reply[2] == 0 && reply[3] == 0
          && reply[4] == 0xAAAAAAAA);
    CHECK(larboardyuzu_endpoint_protocol(endpoint, &protocol) == LARBOARDYUZU_DONE && protocol == 1);
}

/* The exclusive that gets too long is dropped; all else stands. */
static void too_long(larboardyuzu_endpoint *endpoint)
{
    static const uint32_t start[] = { 0x30160102, 0x03040506 }, more[] = { 0x30260102, 0x03040506 };
    larboardyuzu_replies replies;
    uint64_t offset = 7;

    CHECK(push(endpoint, start, 2, &replies) == LARBOARDYUZU_DONE);
    for (int i = 1; i < ROOM / 6; i++)
        CHECK(push(endpoint, more, 2, &replies) == LARBOARDYUZU_DONE);
    CHECK(push(endpoint, more, 2, &replies) == LARBOARDYUZU_EXCLUSIVE_TOO_LONG && replies.written == 0);
    CHECK(larboardyuzu_endpoint_begun(endpoint, 0, &offset) == LARBOARDYUZU_NOTHING && offset == 7);
    CHECK(larboardyuzu_endpoint_begun(endpoint, 16, &offset) == LARBOARDYUZU_BAD_GROUP && offset == 7);
}

static void asked(larboardyuzu_endpoint *endpoint)
{
    larboardyuzu_profile profile = { 0, 0, 0, { 0 }, false };
    uint32_t muid = 7;

    CHECK(larboardyuzu_endpoint_muid(endpoint, 0, &muid) == LARBOARDYUZU_DONE && muid == 19088743);
    CHECK(larboardyuzu_endpoint_muid(endpoint, 1, &muid) == LARBOARDYUZU_NOTHING && muid == 19088743);
    CHECK(larboardyuzu_endpoint_profile(endpoint, 0, &profile) == LARBOARDYUZU_DONE);
    CHECK(profile.block == 0 && profile.group == 0 && profile.channel == 2 && !profile.is_on);
    CHECK(!memcmp(profile.id, "\x7E\0\1\1\0", 5));
    CHECK(larboardyuzu_endpoint_profile(endpoint, 1, &profile) == LARBOARDYUZU_NOTHING);
    CHECK(profile.block == 255 && profile.group == 255 && profile.channel == 255 && !profile.is_on);
    CHECK(larboardyuzu_endpoint_profile(endpoint, SIZE_MAX, &profile) == LARBOARDYUZU_NOTHING);
}

/* A peer that says that the block's MUID is invalid, twice: the block takes its next one, and then it is
 * silent. */
static void silent(larboardyuzu_endpoint *endpoint)
{
    static const uint32_t first[] = {
        0x30167E7F, 0x0D7E0205, 0x30260000, 0x007F7F7F, 0x30357F67, 0x0A0D0900
    };
    static const uint32_t second[] = { 0x30167E7F, 0x0D7E0205, 0x30260000,
                                       0x007F7F7F, 0x30357F2C, 0x02000000 };
    larboardyuzu_replies replies;
    uint32_t muid = 7;

    for (size_t i = 0; i < COUNT(first); i += 2)
        CHECK(push(endpoint, first + i, 2, &replies) == LARBOARDYUZU_DONE);
    CHECK(replies.heard == LARBOARDYUZU_HEARD_MOVED && replies.written == 0);
    CHECK(larboardyuzu_endpoint_muid(endpoint, 0, &muid) == LARBOARDYUZU_DONE && muid == 300);
    for (size_t i = 0; i < COUNT(second); i += 2)
        CHECK(push(endpoint, second + i, 2, &replies) == LARBOARDYUZU_DONE);
    CHECK(larboardyuzu_endpoint_muid(endpoint, 0, &muid) == LARBOARDYUZU_NOTHING && muid == 300);
}

int main(void)
{
    larboardyuzu_endpoint endpoint = LARBOARDYUZU_CLOSED;
    uint8_t rule;

    opened();
    broken_rules();
    closed();
    CHECK(open_with(&endpoint, setup, sizeof setup - 1, &rule) == LARBOARDYUZU_DONE);
    packets(&endpoint);
    too_long(&endpoint);
    asked(&endpoint);
    silent(&endpoint);
    larboardyuzu_endpoint_close(&endpoint);
    printf("endpoint: ok\n");
    return 0;
}
