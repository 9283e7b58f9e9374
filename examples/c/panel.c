/* panel SETUP: a device's own panel over an endpoint. The library has no call that switches a profile or the
 * protocol at home, so the device passes its endpoint the message that a peer would send. The reply is what
 * every peer has to hear: the report of a profile, or the notification of the protocol. */
#include "larboardyuzu.h"

#include <stdio.h>
#include <string.h>

enum {
    ROOM = 512,
    MOST = LARBOARDYUZU_MOST_REPLY_WORDS,
    PANEL = 1 /* the MUID of the panel, which is nobody's on the wire */
};

static larboardyuzu_endpoint endpoint = LARBOARDYUZU_CLOSED;
static uint32_t reply[MOST];

/* Passes a packet to the endpoint, and prints the words of the replies, which a device sends to its peers. */
static bool pass(const uint32_t *words, size_t count)
{
    larboardyuzu_replies replies;

    if (larboardyuzu_endpoint_packet(&endpoint, words, count, 0, reply, MOST, &replies) != LARBOARDYUZU_DONE)
        return false;
    for (size_t i = 0; i < replies.written; i++)
        printf(" %08X", (unsigned)reply[i]);
    return true;
}

/* Writes a MUID as four bytes of seven bits, the lowest first. */
static void put_muid(uint8_t *to, uint32_t muid)
{
    for (int i = 0; i < 4; i++)
        to[i] = (uint8_t)(muid >> 7 * i & 127);
}

/* Switches a profile of the setup. A group in which a peer's exclusive is open has to wait: the panel's
 * message would cut that exclusive off. */
static bool switch_profile(size_t index, bool on)
{
    /* Set Profile On or Off (MIDI-CI): of one channel, with the number of channels behind the id */
    uint8_t message[20] = { 0x7E, 0, 0x0D, (uint8_t)(on ? 0x22 : 0x23), 2 };
    larboardyuzu_profile profile;
    uint32_t muid, words[2];
    uint64_t begun;

    if (larboardyuzu_endpoint_profile(&endpoint, index, &profile) != LARBOARDYUZU_DONE
        || larboardyuzu_endpoint_muid(&endpoint, profile.block, &muid) != LARBOARDYUZU_DONE
        || profile.group > 15 /* of a whole function block: its first group, by the setup */
        || larboardyuzu_endpoint_begun(&endpoint, profile.group, &begun) != LARBOARDYUZU_NOTHING)
        return false;
    message[1] = profile.channel < 16 ? profile.channel : 0x7E;
    put_muid(message + 5, PANEL);
    put_muid(message + 9, muid);
    memcpy(message + 13, profile.id, sizeof profile.id);
    message[18] = profile.channel < 16;
    for (size_t i = 0; larboardyuzu_exclusive_packet(profile.group, message, sizeof message, i, words, 2)
                       == LARBOARDYUZU_DONE;
         i++)
        if (!pass(words, 2))
            return false;
    return larboardyuzu_endpoint_profile(&endpoint, index, &profile) == LARBOARDYUZU_DONE
           && profile.is_on == on;
}

/* Switches the protocol: 1 for MIDI 1.0, 2 for MIDI 2.0. */
static bool switch_protocol(uint8_t protocol)
{
    const uint32_t request[4] = { 0xF0050000 | (uint32_t)protocol << 8, 0, 0, 0 };
    uint8_t now = 0;

    return pass(request, 4) && larboardyuzu_endpoint_protocol(&endpoint, &now) == LARBOARDYUZU_DONE
           && now == protocol;
}

int main(int count, char **given)
{
    static uint8_t text[LARBOARDYUZU_MOST_SETUP_BYTES];
    FILE *file = count > 1 ? fopen(given[1], "rb") : NULL;
    size_t size = file != NULL ? fread(text, 1, sizeof text, file) : 0;
    uint8_t rule;
    bool ok;

    if (file != NULL)
        fclose(file);
    if (larboardyuzu_endpoint_open(&endpoint, text, size, ROOM, &rule) != LARBOARDYUZU_DONE)
        return 1;
    printf("profile 0 on:");
    ok = switch_profile(0, true);
    printf("\nprofile 0 off:");
    ok = switch_profile(0, false) && ok;
    printf("\nprotocol 1:");
    ok = switch_protocol(1) && ok;
    printf("\n");
    larboardyuzu_endpoint_close(&endpoint);
    return ok ? 0 : 1;
}
