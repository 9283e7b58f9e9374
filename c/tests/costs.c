/* costs [STACKS]: what handles cost. Prints a line for each kind of handle and each room: the bytes that it
 * keeps, the most that its open call had at once, its requests for memory, and how deep the stack is in its
 * open call and in all its other calls. STACKS is a file with lines "KIND OPEN USE" of bytes: then the
 * calls also run on stacks that are only so large, each with a page below it that can't be touched. Built
 * with OWN_HEAP, it uses own_heap.c, and the second number is the size that its block must have. */
#define _GNU_SOURCE
#include "check.h"
#include "larboardyuzu_heap.h"
#include "setup.h"
#include "subjects.h"

#include <string.h>
#include <sys/mman.h>
#include <ucontext.h>

enum {
    WORDS = 3000,
    BYTES = 3000,
    PAGE = 65536, /* (the largest page of the processors) */
    DEEP = 1 << 20,
    PAINT = 0xA5,
    OWN = 512 /* what this test's own frames take */
};

#if defined(OWN_HEAP)
/* ---- Memory: the block of own_heap.c. */

#include "own_heap.h"

static size_t kept_now(void)
{
    return own_heap_used();
}

static size_t most_so_far(void)
{
    return own_heap_most();
}

static long requests_so_far(void)
{
    return (long)own_heap_requests();
}
#else
/* ---- Memory: a block, from the front, which counts. */

static _Alignas(16) unsigned char memory[64 << 20];
static size_t used, kept, peak;
static long requests;

static larboardyuzu_given give(size_t size)
{
    larboardyuzu_given it = { true, memory + used + 16 };

    CHECK(size < sizeof memory - used - 32);
    memcpy(memory + used, &size, sizeof size);
    used += (size + 31) / 16 * 16;
    kept += size;
    peak = kept > peak ? kept : peak;
    requests++;
    return it;
}

static size_t size_of(const void *at)
{
    size_t size;
    memcpy(&size, (const unsigned char *)at - 16, sizeof size);
    return size;
}

larboardyuzu_given larboardyuzu_heap_alloc(size_t size, size_t align)
{
    (void)align;
    return give(size);
}

larboardyuzu_given larboardyuzu_heap_realloc(void *at, size_t old, size_t size, size_t align)
{
    larboardyuzu_given it = give(size);
    (void)align;
    memcpy(it.at, at, old < size ? old : size);
    kept -= size_of(at);
    return it;
}

void larboardyuzu_heap_dealloc(void *at)
{
    kept -= size_of(at);
}

static size_t kept_now(void)
{
    return kept;
}

/* The most bytes since the last row began, which begins with nothing in use. */
static size_t most_so_far(void)
{
    size_t found = peak;

    used = peak = 0;
    return found;
}

static long requests_so_far(void)
{
    return requests;
}
#endif

/* ---- The rows of the table. */

typedef struct row {
    const char *name;
    size_t subject; /* of subjects.h */
    uint32_t (*open)(handle *it, uint32_t room);
} row;

static uint32_t open_down(handle *it, uint32_t room)
{
    return larboardyuzu_down_open(&it->down, room, LARBOARDYUZU_COMPACT | LARBOARDYUZU_PAIRED);
}

static uint32_t open_up(handle *it, uint32_t room)
{
    return larboardyuzu_up_open(&it->up, 0, room, 0);
}

static uint32_t open_parser(handle *it, uint32_t room)
{
    return larboardyuzu_parser_open(&it->parser, room);
}

static uint32_t open_usb(handle *it, uint32_t room)
{
    return larboardyuzu_usb_open(&it->usb, 0, room);
}

static uint32_t open_endpoint(handle *it, uint32_t room)
{
    uint8_t rule;
    return larboardyuzu_endpoint_open(&it->endpoint, (const uint8_t *)setup, sizeof setup - 1, room, &rule);
}

static uint32_t open_sysex8(handle *it, uint32_t room)
{
    return larboardyuzu_sysex8_open(&it->sysex8, 1, room < 13 ? 13 : room);
}

static uint32_t open_state(handle *it, uint32_t room)
{
    return larboardyuzu_state_open(&it->state, room, 0, 0, 0);
}

static uint32_t open_state_of_bytes(handle *it, uint32_t room)
{
    return larboardyuzu_state_open(&it->state, room, 0, 0, LARBOARDYUZU_OF_BYTES);
}

static const row rows[] = {
    { "down", 0, open_down },         { "up", 1, open_up },
    { "parser", 2, open_parser },     { "usb", 3, open_usb },
    { "endpoint", 4, open_endpoint }, { "sysex8-1", 5, open_sysex8 },
    { "state-0-0", 6, open_state },   { "state-of-bytes", 7, open_state_of_bytes },
};
static const uint32_t rooms[] = { 6, 1024 };

/* ---- The stack. */

static unsigned char *stack; /* above a page that can't be touched */
static ucontext_t outside, inside;

/* Runs a call on a stack of this size: how deep it gets. */
static size_t depth_of(void (*call)(void), size_t size)
{
    size_t untouched = 0;

    memset(stack, PAINT, size);
    CHECK(getcontext(&inside) == 0);
    inside.uc_stack.ss_sp = stack;
    inside.uc_stack.ss_size = size;
    inside.uc_link = &outside;
    makecontext(&inside, call, 0);
    CHECK(swapcontext(&outside, &inside) == 0);
    while (untouched < size && stack[untouched] == PAINT)
        untouched++;
    return size - untouched;
}

static const row *current;
static uint32_t room;
static handle it;
static uint32_t words[WORDS];
static uint8_t bytes[BYTES];

static void nothing(void)
{
}

static void run_open(void)
{
    CHECK(current->open(&it, room) == LARBOARDYUZU_DONE);
}

static input at_of(const subject *kind, size_t at)
{
    input in;
    if (kind->takes_words)
        in.words = words + at;
    else
        in.bytes = bytes + at;
    return in;
}

/* Every other call of the kind. */
static void run_use(void)
{
    static places out;
    static items all;
    const subject *kind = &subjects[current->subject];
    const size_t end = kind->takes_words ? WORDS : BYTES;
    size_t most = kind->most(room);
    larboardyuzu_block block;

    for (size_t at = 0; at < end; at += kind->takes_words ? larboardyuzu_words_in_packet(words[at]) : 1)
        kind->one(&it, at_of(kind, at), kind->takes_words ? larboardyuzu_words_in_packet(words[at]) : 1, at,
                  &out, most, &all);
    for (size_t at = 0; at < end; at += block.taken) {
        kind->many(&it, at_of(kind, at), end - at, at, &out, most + 60, &all, ITEMS, &block);
        CHECK(block.taken > 0);
    }
    kind->reads_same(&it, &it);
    CHECK(kind->reset(&it) == LARBOARDYUZU_DONE);
    kind->close(&it);
}

static void run_row(size_t open_stack, size_t use_stack)
{
    size_t own = depth_of(nothing, DEEP), open_depth, use_depth, kept_after, most;
    long requests_before = requests_so_far(), requests_after;

    open_depth = depth_of(run_open, open_stack + OWN) - own;
    kept_after = kept_now();
    requests_after = requests_so_far();
    random_words(words, WORDS);
    random_bytes(bytes, BYTES);
    use_depth = depth_of(run_use, use_stack + OWN) - own;
    most = most_so_far();
    CHECK(kept_now() == 0);
    printf("%s %lu %lu %lu %ld %lu %lu\n", current->name, (unsigned long)room, (unsigned long)kept_after,
           (unsigned long)most, requests_after - requests_before, (unsigned long)open_depth,
           (unsigned long)use_depth);
}

/* The stacks of a kind, by the file. */
static void stacks_of(FILE *file, unsigned long *open_stack, unsigned long *use_stack)
{
    char name[32];

    rewind(file);
    while (fscanf(file, "%31s %lu %lu", name, open_stack, use_stack) == 3)
        if (!strcmp(name, current->name))
            return;
    CHECK(!"the file has all kinds");
}

int main(int count, char **given)
{
    FILE *file = count > 1 ? fopen(given[1], "r") : NULL;
    unsigned char *below =
        mmap(NULL, DEEP + PAGE, PROT_READ | PROT_WRITE, MAP_PRIVATE | MAP_ANONYMOUS, -1, 0);

    CHECK(below != MAP_FAILED && mprotect(below, PAGE, PROT_NONE) == 0);
    CHECK(count < 2 || file != NULL);
    stack = below + PAGE;
    for (size_t i = 0; i < COUNT(rows); i++) {
        unsigned long open_stack = DEEP - OWN, use_stack = DEEP - OWN;
        current = &rows[i];
        if (file != NULL)
            stacks_of(file, &open_stack, &use_stack);
        for (size_t k = 0; k < COUNT(rooms); k++) {
            room = rooms[k];
            run_row(open_stack, use_stack);
        }
    }
    return 0;
}
