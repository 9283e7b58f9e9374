/* The heap of the example: over a fixed block a handle is opened and closed for ever beside another one that
 * stays open, what isn't given is refused, and nothing is in use in the end. */
#include "check.h"
#include "larboardyuzu.h"
#include "larboardyuzu_heap.h"
#include "own_heap.h"
#include "setup.h"

#include <stdint.h>
#include <string.h>

enum {
    TIMES = 1000,
    PIECES = 40
};

static void reopen(void)
{
    larboardyuzu_parser parser = LARBOARDYUZU_CLOSED;
    larboardyuzu_endpoint endpoint = LARBOARDYUZU_CLOSED;
    size_t most = 0;

    CHECK(larboardyuzu_parser_open(&parser, 64) == LARBOARDYUZU_DONE);
    for (int i = 0; i < TIMES; i++) {
        uint8_t rule;
        CHECK(larboardyuzu_endpoint_open(&endpoint, (const uint8_t *)setup, sizeof setup - 1, 64, &rule)
              == LARBOARDYUZU_DONE);
        larboardyuzu_endpoint_close(&endpoint);
        most = i == 0 ? own_heap_most() : most;
    }
    CHECK(own_heap_most() == most);
    larboardyuzu_parser_close(&parser);
    CHECK(own_heap_used() == 0);
}

static unsigned number = 1;

static size_t next(size_t below)
{
    number = number * 1103515245 + 12345;
    return number / 65536 % below;
}

/* Pieces of many sizes, each filled with a byte of its own: none of them changes another. */
static void fill(void)
{
    static unsigned char *at[PIECES];
    static size_t sizes[PIECES];

    for (int i = 0; i < 20000; i++) {
        size_t k = next(PIECES), size = next(2000);
        larboardyuzu_given it = at[k] == NULL ? larboardyuzu_heap_alloc(size, 8)
                                              : larboardyuzu_heap_realloc(at[k], sizes[k], size, 8);
        CHECK(it.is_given && (uintptr_t)it.at % 16 == 0);
        for (size_t j = 0; at[k] != NULL && j < size && j < sizes[k]; j++)
            CHECK(((unsigned char *)it.at)[j] == (unsigned char)k);
        memset(it.at, (int)k, size);
        at[k] = it.at;
        sizes[k] = size;
        if (next(3) == 0) {
            larboardyuzu_heap_dealloc(at[k]);
            at[k] = NULL;
        }
    }
    for (size_t k = 0; k < PIECES; k++)
        if (at[k] != NULL)
            larboardyuzu_heap_dealloc(at[k]);
    CHECK(own_heap_used() == 0);
}

int main(void)
{
    larboardyuzu_given all;

    CHECK(!larboardyuzu_heap_alloc(SIZE_MAX, 8).is_given);
    CHECK(!larboardyuzu_heap_alloc(1024 * 1024, 8).is_given);
    all = larboardyuzu_heap_alloc(1024 * 1024 - 16, 8);
    CHECK(all.is_given && !larboardyuzu_heap_alloc(1, 1).is_given);
    larboardyuzu_heap_dealloc(all.at);
    reopen();
    fill();
    printf("own_heap: an endpoint opened %d times beside a parser, ok\n", TIMES);
    return 0;
}
