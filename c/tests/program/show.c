/* Parts of show: the line of each packet, and the lines of the state. */
#include "program.h"

#include <stdlib.h>

int run_lines(const options *given)
{
    recording input = read_recording(given->is_little);
    bytes output = { NULL, 0, 0 };
    uint32_t status = LARBOARDYUZU_DONE;
    size_t at = 0;
    int code = 0;

    while (at < input.count) {
        size_t count = larboardyuzu_words_in_packet(input.words[at]), length;
        uint8_t text[LARBOARDYUZU_MOST_LINE];
        if (count > input.count - at)
            break;
        status = larboardyuzu_packet_line(input.words + at, count, 4 * at, text, sizeof text, &length);
        if (status != LARBOARDYUZU_DONE)
            break;
        add_bytes(&output, text, length);
        at += count;
    }
    if (status != LARBOARDYUZU_DONE)
        code = refused(status, 4 * at);
    else if (4 * at < input.size)
        code = refused_input(4 * at);
    write_output(&output);
    free(input.words);
    return code;
}

/* The line of one fact. */
static void say_fact(const larboardyuzu_fact *fact)
{
    static const char *const names[] = { "on",         "off",        "mode",   "poly",
                                         "control",    "pressure",   "bend",   "program",
                                         "registered", "assignable", "system", "real-time" };

    must(fact->kind < sizeof names / sizeof names[0], "no such fact");
    printf("state %u", (unsigned)fact->group);
    if (fact->kind < LARBOARDYUZU_FACT_SYSTEM)
        printf(" %u", (unsigned)fact->channel);
    printf(" %s", names[fact->kind]);
    switch (fact->kind) {
    case LARBOARDYUZU_FACT_PRESSURE:
    case LARBOARDYUZU_FACT_BEND:
        printf(" %lu\n", (unsigned long)fact->value);
        break;
    case LARBOARDYUZU_FACT_PROGRAM:
        printf(" %u bank", (unsigned)fact->number);
        if (fact->has_bank)
            printf(" %u/%u\n", (unsigned)fact->bank, (unsigned)fact->bank_lsb);
        else
            printf(" none\n");
        break;
    case LARBOARDYUZU_FACT_REGISTERED:
    case LARBOARDYUZU_FACT_ASSIGNABLE:
        printf(" %u %u", (unsigned)fact->bank, (unsigned)fact->number);
        if (fact->has_value)
            printf(" %lu", (unsigned long)fact->value);
        else
            printf(" none");
        printf("%s\n", fact->is_loose ? " loose" : "");
        break;
    case LARBOARDYUZU_FACT_SYSTEM:
    case LARBOARDYUZU_FACT_REAL_TIME:
        printf(" %llu\n", (unsigned long long)fact->count);
        break;
    default:
        printf(" %u %lu\n", (unsigned)fact->number, (unsigned long)fact->value);
    }
}

static larboardyuzu_state state = LARBOARDYUZU_CLOSED;

/* The sizes of the state's lists: more than a recording of these tests has. A longer one is compared with a
   program that is built with more, as by -DNOTES=262144 -DPARAMS=4096. */
#ifndef NOTES
#define NOTES 4096
#endif
#ifndef PARAMS
#define PARAMS 128
#endif

/* The facts of a channel, or of none, in a list that grows. */
static void say_facts_of(uint8_t group, uint8_t channel)
{
    static larboardyuzu_fact *facts;
    static size_t size;
    size_t written, need;
    uint32_t status = larboardyuzu_state_facts(&state, group, channel, facts, size, &written, &need);

    if (status == LARBOARDYUZU_SMALL_BUFFER) {
        size = need;
        facts = realloc(facts, size * sizeof facts[0]);
        must(facts != NULL, "no memory");
        status = larboardyuzu_state_facts(&state, group, channel, facts, size, &written, &need);
    }
    must(status == LARBOARDYUZU_DONE && need == 0, "no facts");
    for (size_t i = 0; i < written; i++)
        say_fact(&facts[i]);
}

static void say_facts(void)
{
    for (uint8_t group = 0; group < 16; group++) {
        for (uint8_t channel = 0; channel < 16; channel++)
            say_facts_of(group, channel);
        say_facts_of(group, LARBOARDYUZU_NO_CHANNEL);
    }
}

static int state_of_bytes(bool is_single)
{
    bytes input = read_all(stdin);
    uint32_t status = LARBOARDYUZU_DONE;
    size_t at = 0;

    if (!is_single) {
        larboardyuzu_block block;
        status = larboardyuzu_state_bytes(&state, input.at, input.size, &block);
        at = block.taken - block.refused;
    }
    for (; is_single && at < input.size; at++) {
        status = larboardyuzu_state_byte(&state, input.at[at]);
        if (status != LARBOARDYUZU_DONE)
            break;
    }
    free(input.at);
    return status != LARBOARDYUZU_DONE ? refused(status, at) : 0;
}

static int state_of_packets(bool is_little, bool is_single)
{
    recording input = read_recording(is_little);
    uint32_t status = LARBOARDYUZU_DONE;
    size_t at = 0;

    if (!is_single) {
        larboardyuzu_block block;
        status = larboardyuzu_state_packets(&state, input.words, input.count, &block);
        at = block.taken - block.refused;
    }
    while (is_single && at < input.count) {
        size_t count = larboardyuzu_words_in_packet(input.words[at]);
        if (count > input.count - at)
            break;
        status = larboardyuzu_state_packet(&state, input.words + at, count);
        if (status != LARBOARDYUZU_DONE)
            break;
        at += count;
    }
    free(input.words);
    if (status != LARBOARDYUZU_DONE && status != LARBOARDYUZU_BAD_WORD_COUNT)
        return refused(status, 4 * at);
    return 4 * at < input.size ? refused_input(4 * at) : 0;
}

int run_state(const options *given)
{
    int code;

    must(larboardyuzu_state_open(&state, given->room, NOTES, PARAMS,
                                 given->is_bytes ? LARBOARDYUZU_OF_BYTES : 0u)
             == LARBOARDYUZU_DONE,
         "not opened");
    code = given->is_bytes ? state_of_bytes(given->is_single)
                           : state_of_packets(given->is_little, given->is_single);
    if (code == 0)
        say_facts();
    larboardyuzu_state_close(&state);
    return code;
}
