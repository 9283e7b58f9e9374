/* Four threads, each with handles of its own, translate the same packets at once, and one handle goes from
 * a thread to the next. */
#include "check.h"
#include "larboardyuzu.h"

#include <pthread.h>
#include <string.h>

enum {
    ROOM = 64,
    TIMES = 20000,
    THREADS = 4
};

static const uint32_t start[] = { 0x30160102, 0x03040506 }, end[] = { 0x30310700, 0x00000000 };

static void take_one(larboardyuzu_down *down, const uint32_t *packet, size_t length, const char *wanted)
{
    uint8_t bytes[LARBOARDYUZU_DOWN_SIZE(ROOM)];
    larboardyuzu_piece piece;

    CHECK(larboardyuzu_down_packet(down, packet, 2, 0, bytes, sizeof bytes, &piece) == LARBOARDYUZU_DONE);
    CHECK(piece.written == length && !memcmp(bytes, wanted, length));
}

static void *translates(void *unused)
{
    static const uint32_t note[] = { 0x40903C00, 0xC9240000 };
    larboardyuzu_down down = LARBOARDYUZU_CLOSED;

    (void)unused;
    CHECK(larboardyuzu_down_open(&down, ROOM, 0) == LARBOARDYUZU_DONE);
    for (int i = 0; i < TIMES; i++) {
        take_one(&down, note, 3, "\x90\x3C\x64");
        take_one(&down, start, 0, "");
        take_one(&down, end, 9, "\xF0\1\2\3\4\5\6\7\xF7");
    }
    larboardyuzu_down_close(&down);
    return NULL;
}

/* What one thread began, another ends. */
static void *ends(void *down)
{
    take_one(down, end, 9, "\xF0\1\2\3\4\5\6\7\xF7");
    return NULL;
}

int main(void)
{
    pthread_t threads[THREADS], other;
    larboardyuzu_down down = LARBOARDYUZU_CLOSED;

    for (int i = 0; i < THREADS; i++)
        CHECK(pthread_create(&threads[i], NULL, translates, NULL) == 0);
    for (int i = 0; i < THREADS; i++)
        CHECK(pthread_join(threads[i], NULL) == 0);
    CHECK(larboardyuzu_down_open(&down, ROOM, 0) == LARBOARDYUZU_DONE);
    take_one(&down, start, 0, "");
    CHECK(pthread_create(&other, NULL, ends, &down) == 0 && pthread_join(other, NULL) == 0);
    larboardyuzu_down_close(&down);
    printf("threads: ok\n");
    return 0;
}
