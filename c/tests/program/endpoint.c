/* endpoint. */
#include "program.h"

#include <stdlib.h>

enum {
    PACKETS = 100
};

static larboardyuzu_endpoint endpoint = LARBOARDYUZU_CLOSED;
static bytes output;

static void say_heard(const larboardyuzu_replies *replies, uint64_t offset)
{
    static const char *const names[] = {
        "",          "not-ci",    "short",       "bad-address", "reserved-muid", "no-block",
        "silent",    "collision", "old-version", "not-ours",    "moved",         "report",
        "broadcast", "answered",  "passed",      "nak",         "no-answer",     "bad-format",
    };

    must(replies->heard < sizeof names / sizeof names[0], "no such name");
    if (replies->heard == LARBOARDYUZU_HEARD_NOTHING)
        return;
    if (replies->group < 16)
        fprintf(stderr, "%llu %u %s\n", (unsigned long long)offset, (unsigned)replies->group,
                names[replies->heard]);
    else
        fprintf(stderr, "%llu - %s\n", (unsigned long long)offset, names[replies->heard]);
}

static void say_profile(const larboardyuzu_profile *profile)
{
    fprintf(stderr, "profile %u ", (unsigned)profile->block);
    if (profile->group > 15)
        fprintf(stderr, "function ");
    else if (profile->channel > 15)
        fprintf(stderr, "group %u ", (unsigned)profile->group);
    else
        fprintf(stderr, "channel %u %u ", (unsigned)profile->group, (unsigned)profile->channel);
    for (size_t i = 0; i < 5; i++)
        fprintf(stderr, "%02X", (unsigned)profile->id[i]);
    fprintf(stderr, " %s\n", profile->is_on ? "on" : "off");
}

/* The lines at the end of the input. */
static void say_end(void)
{
    larboardyuzu_profile profile;
    uint64_t offset;
    uint32_t muid;
    uint8_t protocol;

    for (uint8_t group = 0; group < 16; group++)
        if (larboardyuzu_endpoint_begun(&endpoint, group, &offset) == LARBOARDYUZU_DONE)
            list(offset, group, LARBOARDYUZU_OPEN_EXCLUSIVE);
    must(larboardyuzu_endpoint_protocol(&endpoint, &protocol) == LARBOARDYUZU_DONE, "no protocol");
    fprintf(stderr, "protocol %u\n", (unsigned)protocol);
    for (uint8_t block = 0; block < 32; block++) {
        if (larboardyuzu_endpoint_muid(&endpoint, block, &muid) == LARBOARDYUZU_DONE)
            fprintf(stderr, "block %u muid %lu\n", (unsigned)block, (unsigned long)muid);
    }
    for (size_t i = 0; larboardyuzu_endpoint_profile(&endpoint, i, &profile) == LARBOARDYUZU_DONE; i++)
        say_profile(&profile);
}

static void put_replies(const larboardyuzu_replies *replies, const uint32_t *at, uint64_t offset,
                        bool is_little)
{
    add_words(&output, at, replies->written, is_little);
    say_heard(replies, offset);
    if (replies->kind != LARBOARDYUZU_NO_LINE)
        list(replies->offset, replies->group, replies->kind);
}

/* Block calls. */
static size_t take_many(const recording *input, bool is_little, uint32_t *status)
{
    static uint32_t reply[LARBOARDYUZU_MOST_REPLY_WORDS + 100];
    static larboardyuzu_replies replies[PACKETS];
    size_t at = 0;

    for (;;) {
        larboardyuzu_block block;
        size_t written = 0, packet = at;
        *status =
            larboardyuzu_endpoint_packets(&endpoint, input->words + at, input->count - at, 4 * at, reply,
                                          sizeof reply / sizeof reply[0], replies, PACKETS, &block);
        for (size_t i = 0; i < block.items; i++) {
            put_replies(&replies[i], reply + written, 4 * packet, is_little);
            written += replies[i].written;
            packet += larboardyuzu_words_in_packet(input->words[packet]);
        }
        must(written == block.written, "the replies don't have the words");
        at += block.taken;
        if (!goes_on(*status, &block))
            return at - block.refused;
    }
}

/* A call for each packet: how many words are taken, and the status of the packet after them. */
static size_t take_each(const recording *input, bool is_little, uint32_t *status)
{
    static uint32_t reply[LARBOARDYUZU_MOST_REPLY_WORDS];
    size_t at = 0;

    *status = LARBOARDYUZU_DONE;
    while (at < input->count) {
        size_t count = larboardyuzu_words_in_packet(input->words[at]);
        larboardyuzu_replies replies;
        if (count > input->count - at)
            break;
        *status = larboardyuzu_endpoint_packet(&endpoint, input->words + at, count, 4 * at, reply,
                                               LARBOARDYUZU_MOST_REPLY_WORDS, &replies);
        if (*status != LARBOARDYUZU_DONE)
            break;
        put_replies(&replies, reply, 4 * at, is_little);
        at += count;
    }
    return at;
}

static int open_endpoint(const options *given)
{
    FILE *file = fopen(given->setup, "rb");
    bytes text = read_all(file);
    uint8_t rule = 0;
    uint32_t status = larboardyuzu_endpoint_open(&endpoint, text.at, text.size, given->room, &rule);

    fclose(file);
    free(text.at);
    if (status == LARBOARDYUZU_SETUP_SYNTAX) {
        fprintf(stderr, "setup is not TOML\n");
        return 8;
    }
    if (status == LARBOARDYUZU_SETUP_RULE) {
        fprintf(stderr, "setup field %u\n", (unsigned)rule);
        return 9;
    }
    must(status == LARBOARDYUZU_DONE, "not opened");
    return 0;
}

int run_endpoint(const options *given)
{
    recording input = read_recording(given->is_little);
    uint32_t status;
    size_t at;
    int code = open_endpoint(given);

    if (code == 0) {
        at = given->is_single ? take_each(&input, given->is_little, &status)
                              : take_many(&input, given->is_little, &status);
        if (status != LARBOARDYUZU_DONE && status != LARBOARDYUZU_BAD_WORD_COUNT)
            code = refused(status, 4 * at);
        else if (4 * at < input.size)
            code = refused_input(4 * at);
        else
            say_end();
        larboardyuzu_endpoint_close(&endpoint);
        write_output(&output);
    }
    free(input.words);
    return code;
}
