/* A whole conversation with a peer. The peer discovers the endpoint and its function block, and the block by
 * MIDI-CI; it uses the block's own MUID, so that the block takes its next one; it switches a profile on; and
 * it requests the MIDI 1.0 protocol. Each packet of the peer and each packet of a reply is a line. Then the
 * link breaks, and a reset makes the endpoint ready for the next peer. */
#include "larboardyuzu.h"

#include <stdio.h>

enum {
    ROOM = 1024
};

static const char setup[] = "[endpoint]\n"
                            "name = \"Demo Endpoint X\"\n"
                            "id = \"SN-0001\"\n"
                            "manufacturer = [125, 0, 0]\n"
                            "family = 1\n"
                            "model = 2\n"
                            "revision = [1, 0, 0, 0]\n"
                            "midi1 = true\n"
                            "midi2 = true\n"
                            "protocol = 2\n"
                            "static = true\n"
                            "[[block]]\n"
                            "active = true\n"
                            "name = \"Main\"\n"
                            "hint = 3\n"
                            "midi1 = 0\n"
                            "direction = 3\n"
                            "first = 0\n"
                            "count = 1\n"
                            "ci = 2\n"
                            "sysex8 = 0\n"
                            "muids = [19088743, 300]\n"
                            "[[profile]]\n"
                            "block = 0\n"
                            "place = \"channel\"\n"
                            "group = 0\n"
                            "channel = 2\n"
                            "id = [126, 0, 1, 1, 0]\n"
                            "on = false\n";

static const uint32_t peer[] = {
    /* Endpoint Discovery, which requests all five notifications (M2-104-UM) */
    0xF0000101,
    0x0000001F,
    0x00000000,
    0x00000000,
    /* Function Block Discovery of all blocks, with their names */
    0xF010FF03,
    0x00000000,
    0x00000000,
    0x00000000,
    /* MIDI-CI Discovery (M2-101-UM) */
    0x30167E7F,
    0x0D700205,
    0x30260000,
    0x007F7F7F,
    0x30267F7D,
    0x00000100,
    0x30260200,
    0x01000000,
    0x30360400,
    0x02000000,
    /* Discovery again, from a peer that has the block's MUID */
    0x30167E7F,
    0x0D700267,
    0x30260A0D,
    0x097F7F7F,
    0x30267F7D,
    0x00000100,
    0x30260200,
    0x01000000,
    0x30360400,
    0x02000000,
    /* Set Profile On of channel 2, to the MUID that the block has now */
    0x30167E02,
    0x0D220205,
    0x30260000,
    0x002C0200,
    0x3026007E,
    0x00010100,
    0x30320100,
    0x00000000,
    /* Stream Configuration Request of protocol 1 */
    0xF0050100,
    0x00000000,
    0x00000000,
    0x00000000,
};

static void print(const char *from, const uint32_t *words, size_t count)
{
    printf("%s", from);
    for (size_t i = 0; i < count; i++)
        printf(" %08lX", (unsigned long)words[i]);
    printf("\n");
}

/* Answers one packet of the peer, and prints the replies. */
static uint32_t answer(larboardyuzu_endpoint *endpoint, const uint32_t *words, size_t count,
                       uint64_t offset)
{
    static uint32_t reply[LARBOARDYUZU_MOST_REPLY_WORDS];
    larboardyuzu_replies replies = { 0, 0, 0, 0, 0, 0 };
    uint32_t status = larboardyuzu_endpoint_packet(endpoint, words, count, offset, reply,
                                                   LARBOARDYUZU_MOST_REPLY_WORDS, &replies);

    print("peer:", words, count);
    if (status != LARBOARDYUZU_DONE)
        return status;
    for (size_t at = 0; at < replies.written; at += larboardyuzu_words_in_packet(reply[at]))
        print("    :", reply + at, larboardyuzu_words_in_packet(reply[at]));
    return status;
}

/* Prints the protocol, the MUID and the profiles that are in force. */
static void print_state(const larboardyuzu_endpoint *endpoint)
{
    uint8_t protocol = 0;
    uint32_t muid = 0;
    larboardyuzu_profile profile = { 0, 0, 0, { 0 }, false };

    if (larboardyuzu_endpoint_protocol(endpoint, &protocol) == LARBOARDYUZU_DONE)
        printf("protocol %u\n", (unsigned)protocol);
    if (larboardyuzu_endpoint_muid(endpoint, 0, &muid) == LARBOARDYUZU_DONE)
        printf("block 0: MUID %lu\n", (unsigned long)muid);
    for (size_t i = 0; larboardyuzu_endpoint_profile(endpoint, i, &profile) == LARBOARDYUZU_DONE; i++)
        printf("profile %lu: %s\n", (unsigned long)i, profile.is_on ? "on" : "off");
}

int main(void)
{
    larboardyuzu_endpoint endpoint = LARBOARDYUZU_CLOSED;
    uint8_t rule = 0;
    uint32_t status =
        larboardyuzu_endpoint_open(&endpoint, (const uint8_t *)setup, sizeof setup - 1, ROOM, &rule);
    size_t at = 0;

    while (status == LARBOARDYUZU_DONE && at < sizeof peer / sizeof peer[0]) {
        size_t count = larboardyuzu_words_in_packet(peer[at]);
        status = answer(&endpoint, peer + at, count, 4 * at);
        at += count;
    }
    if (status == LARBOARDYUZU_DONE) {
        print_state(&endpoint);
        larboardyuzu_endpoint_reset(&endpoint);
        printf("after a reset:\n");
        print_state(&endpoint);
    } else
        fprintf(stderr, "status %lu, rule %u\n", (unsigned long)status, (unsigned)rule);
    larboardyuzu_endpoint_close(&endpoint);
    return status == LARBOARDYUZU_DONE ? 0 : 1;
}
