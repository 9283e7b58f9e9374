/* A device: answers the host over a file that carries packets both ways, such as the kernel's gadget for
 * MIDI 2.0: device SETUP.toml /dev/snd/umpC1D0. Words have the machine's order. It ends when the device goes
 * away. */
#include "larboardyuzu.h"

#include <fcntl.h>
#include <stdio.h>
#include <string.h>
#include <unistd.h>

static larboardyuzu_endpoint endpoint = LARBOARDYUZU_CLOSED;

/* Answers one packet. A refused one has no reply. Returns -1 if the reply can't be written. */
static int answer(int device, const uint32_t *packet, size_t count, uint64_t offset)
{
    static uint32_t reply[LARBOARDYUZU_MOST_REPLY_WORDS];
    larboardyuzu_replies it;

    if (larboardyuzu_endpoint_packet(&endpoint, packet, count, offset, reply,
                                     LARBOARDYUZU_MOST_REPLY_WORDS, &it) != LARBOARDYUZU_DONE)
        return 0;
    return it.written > 0 && write(device, reply, 4 * it.written) < 0 ? -1 : 0;
}

int main(int count, char **words)
{
    static uint8_t text[LARBOARDYUZU_MOST_SETUP_BYTES + 1];
    static uint32_t in[4096];
    int setup = count == 3 ? open(words[1], O_RDONLY) : -1;
    int device = count == 3 ? open(words[2], O_RDWR) : -1;
    ssize_t size = setup < 0 ? -1 : read(setup, text, sizeof text);
    size_t held = 0;
    uint64_t offset = 0;
    uint8_t rule = 0;

    if (device < 0 || size < 0 ||
        larboardyuzu_endpoint_open(&endpoint, text, (size_t)size, 65536, &rule) != LARBOARDYUZU_DONE)
        return fprintf(stderr, "device SETUP.toml DEVICE; rule %u of the setup\n", (unsigned)rule), 1;
    while ((size = read(device, in + held, sizeof in - 4 * held)) > 0) {
        size_t at = 0, packet;

        held += (size_t)size / 4;
        for (; at < held && (packet = larboardyuzu_words_in_packet(in[at])) <= held - at; at += packet)
            if (answer(device, in + at, packet, offset + 4 * at) < 0)
                return 1;
        held -= at;
        offset += 4 * at;
        memmove(in, in + at, 4 * held); /* the rest of a packet comes with the next read */
    }
    larboardyuzu_endpoint_close(&endpoint);
    return 0;
}
