/* Each request for memory of each open call is refused in its turn, by three functions of this test's own:
 * the call returns NO_MEMORY, the handle stays closed, and what was given before is returned. The same of
 * states whose lists are large, with a limit of bytes, and of setups that break a rule. */
#include "check.h"
#include "larboardyuzu.h"
#include "larboardyuzu_heap.h"
#include "broken_setups.h"

enum {
    ROOM = 64
};

static long left = -1;         /* how many more requests are granted; below 0: all */
static size_t most = SIZE_MAX; /* how many more bytes are */
static long blocks;
static char nothing;

static bool is_granted(size_t size)
{
    if (left == 0 || size > most)
        return false;
    left -= left > 0;
    most -= most == SIZE_MAX ? 0 : size;
    return true;
}

static larboardyuzu_given given(void *at)
{
    larboardyuzu_given it = { at != NULL, at != NULL ? at : &nothing };
    return it;
}

larboardyuzu_given larboardyuzu_heap_alloc(size_t size, size_t align)
{
    (void)align;
    if (!is_granted(size))
        return given(NULL);
    blocks++;
    return given(malloc(size != 0 ? size : 1));
}

larboardyuzu_given larboardyuzu_heap_realloc(void *at, size_t kept, size_t size, size_t align)
{
    (void)kept;
    (void)align;
    return given(is_granted(size) ? realloc(at, size != 0 ? size : 1) : NULL);
}

void larboardyuzu_heap_dealloc(void *at)
{
    blocks--;
    free(at);
}

static larboardyuzu_down down = LARBOARDYUZU_CLOSED;
static larboardyuzu_up up = LARBOARDYUZU_CLOSED;
static larboardyuzu_parser parser = LARBOARDYUZU_CLOSED;
static larboardyuzu_endpoint endpoint = LARBOARDYUZU_CLOSED;
static larboardyuzu_state state = LARBOARDYUZU_CLOSED;
static larboardyuzu_sysex8 sysex8 = LARBOARDYUZU_CLOSED;
static larboardyuzu_usb usb = LARBOARDYUZU_CLOSED;

static uint32_t open_down(void)
{
    return larboardyuzu_down_open(&down, ROOM, LARBOARDYUZU_COMPACT | LARBOARDYUZU_PAIRED);
}

static uint32_t open_up(void)
{
    return larboardyuzu_up_open(&up, 0, ROOM, LARBOARDYUZU_PAIRED);
}

static uint32_t open_parser(void)
{
    return larboardyuzu_parser_open(&parser, ROOM);
}

static uint32_t open_endpoint(void)
{
    uint8_t rule;
    return larboardyuzu_endpoint_open(&endpoint, (const uint8_t *)setup, sizeof setup - 1, ROOM, &rule);
}

static uint32_t open_state(void)
{
    return larboardyuzu_state_open(&state, ROOM, 8, 8, 0);
}

static uint32_t open_sysex8(void)
{
    return larboardyuzu_sysex8_open(&sysex8, 3, ROOM);
}

static uint32_t open_usb(void)
{
    return larboardyuzu_usb_open(&usb, 0, ROOM);
}

/* Opens with one more request granted each time, until there is enough. */
static void starve(const char *name, uint32_t (*open)(void), const size_t *is_open)
{
    long requests = 0;

    for (;; requests++) {
        uint32_t status;
        left = requests;
        status = open();
        if (status == LARBOARDYUZU_DONE)
            break;
        CHECK(status == LARBOARDYUZU_NO_MEMORY && !*is_open && blocks == 0);
    }
    CHECK(requests > 0 && *is_open && left == 0);
    left = -1;
    printf("starved: %s, %ld requests\n", name, requests);
}

/* A state that needs more bytes than there are: nothing is kept. */
static void starve_large(uint32_t notes, uint32_t params, uint32_t flags)
{
    static const size_t limits[] = { 0, 1, 4096, 100000, 1000000, 5000000 };

    for (size_t i = 0; i < COUNT(limits); i++) {
        most = limits[i];
        CHECK(larboardyuzu_state_open(&state, ROOM, notes, params, flags) == LARBOARDYUZU_NO_MEMORY);
        CHECK(!state.is_open && blocks == 0);
    }
    most = SIZE_MAX;
}

/* A setup that breaks a rule: NO_MEMORY until there is enough to find out, and never more than that. */
static void starve_rules(void)
{
    static char text[2 * sizeof setup];

    for (size_t i = 0; i < COUNT(broken_setups); i++) {
        size_t size = break_setup(i, text);
        uint32_t status = LARBOARDYUZU_NO_MEMORY;
        for (long requests = 0; status == LARBOARDYUZU_NO_MEMORY; requests++) {
            uint8_t rule = 77;
            left = requests;
            status = larboardyuzu_endpoint_open(&endpoint, (const uint8_t *)text, size, ROOM, &rule);
            CHECK(rule == (status == LARBOARDYUZU_NO_MEMORY ? 77 : broken_setups[i].rule));
            CHECK(!endpoint.is_open && blocks == 0);
        }
        CHECK(status == LARBOARDYUZU_SETUP_RULE);
    }
    left = -1;
}

int main(void)
{
    starve("down", open_down, &down.is_open);
    larboardyuzu_down_close(&down);
    starve("up", open_up, &up.is_open);
    larboardyuzu_up_close(&up);
    starve("parser", open_parser, &parser.is_open);
    larboardyuzu_parser_close(&parser);
    starve("endpoint", open_endpoint, &endpoint.is_open);
    larboardyuzu_endpoint_close(&endpoint);
    starve("sysex8", open_sysex8, &sysex8.is_open);
    larboardyuzu_sysex8_close(&sysex8);
    starve("usb", open_usb, &usb.is_open);
    larboardyuzu_usb_close(&usb);
    starve("state", open_state, &state.is_open);
    larboardyuzu_state_close(&state);
    starve_large(70000, 0, 0);
    starve_large(0, LARBOARDYUZU_MOST_PARAMS, 0);
    starve_large(0, LARBOARDYUZU_MOST_PARAMS, LARBOARDYUZU_OF_BYTES);
    starve_large(LARBOARDYUZU_MOST_NOTES, LARBOARDYUZU_MOST_PARAMS, LARBOARDYUZU_OF_BYTES);
    starve_rules();
    printf("starved: large states and broken setups, ok\n");
    CHECK(blocks == 0);
    return 0;
}
