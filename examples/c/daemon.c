/* A live endpoint over a descriptor: daemon SETUP.toml [FD]. It reads and writes the bytes of packets, the
 * highest byte of a word first, as over a socket. It waits in ppoll, cuts what it reads into packets,
 * answers each, and goes on after what is refused, with a line for it. It ends when the peer does, or by
 * SIGTERM, even if the peer doesn't read, or never stops sending. A daemon that waits for the next peer
 * resets the endpoint first, and drops the bytes of a packet that isn't whole. */
#define _GNU_SOURCE /* ppoll */
#include "larboardyuzu.h"

#include <errno.h>
#include <fcntl.h>
#include <poll.h>
#include <signal.h>
#include <stdio.h>
#include <stdlib.h>
#include <string.h>
#include <unistd.h>

enum {
    ROOM = 4096,
    WORDS = 1024,
    PACKETS = 64
};

static larboardyuzu_endpoint endpoint = LARBOARDYUZU_CLOSED;
static volatile sig_atomic_t is_stopped;
static sigset_t ends;   /* SIGTERM and SIGINT */
static sigset_t others; /* the signals that were blocked from the start, without these two */

static void stop(int number)
{
    (void)number;
    is_stopped = 1;
}

/* Waits until the descriptor can be read or written, or SIGTERM or SIGINT comes. They are blocked between the
 * look at is_stopped and the wait, so that none is missed, and let in after it, so that a peer that never
 * lets the descriptor rest can't keep them out. */
static int wait_for(int fd, short events)
{
    struct pollfd it = { fd, events, 0 };
    int ready = -1;

    sigprocmask(SIG_BLOCK, &ends, NULL);
    errno = EINTR;
    if (!is_stopped)
        ready = ppoll(&it, 1, NULL, &others);
    sigprocmask(SIG_SETMASK, &others, NULL);
    return ready;
}

/* Writes a line to standard error: an offset, and a name of the header. */
static void say(uint64_t offset, uint32_t (*name_of)(uint32_t, uint8_t *, size_t, size_t *),
                uint32_t number)
{
    uint8_t name[LARBOARDYUZU_MOST_NAME] = { 0 };
    size_t length = 0;

    name_of(number, name, sizeof name, &length);
    fprintf(stderr, "%llu %.*s\n", (unsigned long long)offset, (int)length, (const char *)name);
}

/* Writes words, and waits while the peer doesn't read. Returns -1 if the peer is gone, or by SIGTERM. */
static int put(int fd, const uint32_t *words, size_t count)
{
    static uint8_t bytes[4 * WORDS];
    size_t at = 0;

    for (size_t i = 0; i < 4 * count; i++)
        bytes[i] = (uint8_t)(words[i / 4] >> (24 - i % 4 * 8));
    while (at < 4 * count) {
        ssize_t size = write(fd, bytes + at, 4 * count - at);
        if (size > 0)
            at += (size_t)size;
        else if (errno == EAGAIN && !is_stopped)
            wait_for(fd, POLLOUT);
        else if (errno != EINTR)
            return -1;
    }
    return 0;
}

/* Answers packets, and goes on after a refusal. Returns -1 if the peer is gone, or by SIGTERM. */
static int answer(int fd, const uint32_t *words, size_t count, uint64_t offset)
{
    static uint32_t reply[LARBOARDYUZU_MOST_REPLY_WORDS];
    static larboardyuzu_replies replies[PACKETS];
    larboardyuzu_block block = { 0, 0, 0, 0, 0, 0 };
    uint32_t status;
    size_t at = 0, packet = 0;

    do {
        status = larboardyuzu_endpoint_packets(&endpoint, words + at, count - at, offset + 4 * at, reply,
                                               LARBOARDYUZU_MOST_REPLY_WORDS, replies, PACKETS, &block);
        for (size_t i = 0; i < block.items; packet += larboardyuzu_words_in_packet(words[packet]), i++)
            if (replies[i].heard != LARBOARDYUZU_HEARD_NOTHING)
                say(offset + 4 * packet, larboardyuzu_heard_name, replies[i].heard);
        if (put(fd, reply, block.written) < 0)
            return -1;
        at += block.taken;
        packet = at;
        if (block.refused > 0)
            say(offset + 4 * (at - block.refused), larboardyuzu_status_name, status);
    } while (status != LARBOARDYUZU_DONE && block.taken > 0);
    return 0;
}

/* Reads until the peer ends. The bytes of a packet that isn't whole stay at the front. */
static void serve(int fd)
{
    static uint8_t bytes[4 * WORDS];
    static uint32_t words[WORDS];
    size_t held = 0;
    uint64_t offset = 0;

    while (!is_stopped) {
        larboardyuzu_block block = { 0, 0, 0, 0, 0, 0 };
        ssize_t size = wait_for(fd, POLLIN) > 0 ? read(fd, bytes + held, sizeof bytes - held) : -1;
        if (size == 0 || (size < 0 && errno != EAGAIN && errno != EINTR))
            return;
        held += size > 0 ? (size_t)size : 0;
        larboardyuzu_packets_in(bytes, held, 0, words, WORDS, &block);
        if (answer(fd, words, block.written, offset) < 0)
            return;
        offset += block.taken;
        held -= block.taken;
        memmove(bytes, bytes + block.taken, held);
    }
}

int main(int count, char **given)
{
    static uint8_t text[LARBOARDYUZU_MOST_SETUP_BYTES + 1];
    FILE *file = count > 1 ? fopen(given[1], "rb") : NULL;
    size_t size = file != NULL ? fread(text, 1, sizeof text, file) : 0;
    int fd = count > 2 ? atoi(given[2]) : STDIN_FILENO;
    struct sigaction act;
    uint8_t rule = 0;
    uint32_t status = LARBOARDYUZU_DONE;

    if (file == NULL)
        return fprintf(stderr, "daemon SETUP.toml [FD]: there is no such setup\n"), 1;
    fclose(file);
    status = larboardyuzu_endpoint_open(&endpoint, text, size, ROOM, &rule);
    if (status != LARBOARDYUZU_DONE)
        return say(rule, larboardyuzu_status_name, status), 1; /* a rule, or SETUP_SYNTAX */
    memset(&act, 0, sizeof act);
    act.sa_handler = stop;
    sigaction(SIGTERM, &act, NULL);
    sigaction(SIGINT, &act, NULL);
    sigemptyset(&ends);
    sigaddset(&ends, SIGTERM);
    sigaddset(&ends, SIGINT);
    sigprocmask(SIG_BLOCK, NULL, &others);
    sigdelset(&others, SIGTERM);
    sigdelset(&others, SIGINT);
    act.sa_handler = SIG_IGN;
    sigaction(SIGPIPE, &act, NULL);
    fcntl(fd, F_SETFL, fcntl(fd, F_GETFL) | O_NONBLOCK);
    serve(fd);
    larboardyuzu_endpoint_close(&endpoint);
    return 0;
}
