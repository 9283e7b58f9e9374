/* Counts the requests for memory, which go through --wrap of malloc, realloc and free: the open calls make
 * some; the calls after them none, neither single calls nor blocks, reads, resets and the facts of states
 * that are full; and after the close calls no block is left. */
#include "check.h"
#include "subjects.h"

enum {
    ROOM = MOST_ROOM,
    NOTES = 2,
    PARAMS = 1,
    WORDS = 2000,
    BYTES = 2000,
    TIMES = 12
};

void *__real_malloc(size_t size);
void *__real_realloc(void *at, size_t size);
void __real_free(void *at);
void *__wrap_malloc(size_t size);
void *__wrap_realloc(void *at, size_t size);
void __wrap_free(void *at);

static long requests, blocks;

void *__wrap_malloc(size_t size)
{
    requests++;
    blocks++;
    return __real_malloc(size);
}

void *__wrap_realloc(void *at, size_t size)
{
    requests++;
    blocks += at == NULL;
    return __real_realloc(at, size);
}

void __wrap_free(void *at)
{
    requests++;
    blocks -= at != NULL;
    __real_free(at);
}

static uint32_t words[WORDS];
static uint8_t bytes[BYTES];
static handle handles[SUBJECTS], others[SUBJECTS];
static larboardyuzu_state packets = LARBOARDYUZU_CLOSED, stream = LARBOARDYUZU_CLOSED;
static long calls;

static input at_of(const subject *it, size_t at)
{
    input in;
    if (it->takes_words)
        in.words = words + at;
    else
        in.bytes = bytes + at;
    return in;
}

static void open_all(void)
{
    for (size_t i = 0; i < SUBJECTS; i++) {
        CHECK(subjects[i].open(&handles[i], ROOM, 0) == LARBOARDYUZU_DONE);
        CHECK(subjects[i].open(&others[i], ROOM, subjects[i].flags) == LARBOARDYUZU_DONE);
    }
    CHECK(larboardyuzu_state_open(&packets, ROOM, NOTES, PARAMS, 0) == LARBOARDYUZU_DONE);
    CHECK(larboardyuzu_state_open(&stream, ROOM, NOTES, PARAMS, LARBOARDYUZU_OF_BYTES)
          == LARBOARDYUZU_DONE);
}

/* Single calls, blocks of random size, reads and a reset. */
static void use(const subject *it, handle *one, handle *other)
{
    static places out;
    static items all;
    const size_t end = it->takes_words ? WORDS : BYTES;
    larboardyuzu_block block;
    uint32_t status;
    size_t at = 0;

    while (at < end) {
        size_t count = it->takes_words ? larboardyuzu_words_in_packet(words[at]) : 1;
        status = it->one(one, at_of(it, at), count, at, &out, it->most(ROOM), &all);
        CHECK(status != LARBOARDYUZU_NO_MEMORY && status != LARBOARDYUZU_SMALL_BUFFER);
        at += count;
        calls++;
    }
    for (at = 0; at < end; at += block.taken) {
        status = it->many(other, at_of(it, at), end - at, at, &out, it->most(ROOM) + random_number() % 40,
                          &all, ITEMS, &block);
        CHECK(status != LARBOARDYUZU_NO_MEMORY && block.taken > 0);
        calls++;
    }
    it->reads_same(one, other);
    CHECK(it->reset(one) == LARBOARDYUZU_DONE);
    calls += 2;
}

/* Fills every list and every place of a state of packets, in each channel, and one channel of a stream. */
static void fill_states(void)
{
    static const uint8_t opcodes[] = { 0x9, 0xB, 0xA, 0xC, 0xD, 0xE, 0x8, 0x2, 0x3, 0x0, 0x1 };
    long full = 0;

    for (uint32_t at = 0; at < 256u * 128u * COUNT(opcodes); at++) {
        uint32_t channel = at / (128 * COUNT(opcodes)),
                 index = 127 - at % 128; /* (121 resets those before) */
        uint32_t opcode = opcodes[at / 128 % COUNT(opcodes)];
        uint32_t packet[2] = { 0x40000000 | channel / 16 << 24 | opcode << 20 | channel % 16 << 16
                                   | index << 8,
                               random_number() & 0x7F7F7F7F };
        uint32_t status = larboardyuzu_state_packet(&packets, packet, 2);
        CHECK(status != LARBOARDYUZU_NO_MEMORY);
        full += status == LARBOARDYUZU_STATE_FULL;
    }
    for (uint32_t at = 0; at < 16 * 128 * 7; at++) {
        const uint8_t message[3] = { (uint8_t)(0x80 | at / 128 % 7 << 4 | at / (128 * 7)),
                                     (uint8_t)(127 - at % 128), 5 };
        larboardyuzu_block block;
        uint32_t status = larboardyuzu_state_bytes(&stream, message, 3, &block);
        CHECK(status != LARBOARDYUZU_NO_MEMORY);
        full += status == LARBOARDYUZU_STATE_FULL;
    }
    for (uint32_t group = 0; group < 16; group++) {
        const uint32_t system[] = { 0x10F10100 | group << 24, 0x10F80000 | group << 24 };
        CHECK(larboardyuzu_state_packet(&packets, system, 1) == LARBOARDYUZU_DONE);
        CHECK(larboardyuzu_state_packet(&packets, system + 1, 1) == LARBOARDYUZU_DONE);
    }
    CHECK(full > 256);
}

/* The facts of a whole state, channel by channel: how many. */
static size_t facts_of(const larboardyuzu_state *state)
{
    static larboardyuzu_fact facts[259 + NOTES + 2 * PARAMS];
    size_t count = 0, written, need;

    for (unsigned i = 0; i < 16 * 17; i++) {
        uint8_t channel = i % 17 == 16 ? LARBOARDYUZU_NO_CHANNEL : (uint8_t)(i % 17);
        CHECK(larboardyuzu_state_facts(state, (uint8_t)(i / 17), channel, facts, COUNT(facts), &written,
                                       &need)
              == LARBOARDYUZU_DONE);
        count += written;
    }
    return count;
}

int main(void)
{
    size_t facts;

    open_all();
    printf("memory: %ld requests of %d open calls", requests, 2 * SUBJECTS + 2);
    requests = 0;
    for (int times = 0; times < TIMES; times++) {
        random_words(words, WORDS);
        random_bytes(bytes, BYTES);
        for (size_t i = 0; i < SUBJECTS; i++)
            use(&subjects[i], &handles[i], &others[i]);
    }
    fill_states();
    facts = facts_of(&packets);
    CHECK(facts > 256 * 240 && facts_of(&stream) > 16 * 120);
    printf(", %ld of %ld calls after them and of %lu facts", requests, calls, (unsigned long)facts);
    CHECK(requests == 0);
    for (size_t i = 0; i < SUBJECTS; i++) {
        subjects[i].close(&handles[i]);
        subjects[i].close(&others[i]);
    }
    larboardyuzu_state_close(&packets);
    larboardyuzu_state_close(&stream);
    printf(", %ld blocks left\n", blocks);
    CHECK(blocks == 0);
    return 0;
}
