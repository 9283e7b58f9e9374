/* The tools of the virtual machine, as one static program; `peer` alone says its use. Words are printed as eight hexadecimal digits. */
#define _GNU_SOURCE
#include <errno.h>
#include <fcntl.h>
#include <poll.h>
#include <signal.h>
#include <stdint.h>
#include <stdio.h>
#include <stdlib.h>
#include <string.h>
#include <sys/ioctl.h>
#include <unistd.h>
/* What the kernel's header of ALSA expects of a user's program. */
#define __user
#define __packed __attribute__((packed))
#include "asound.h"
#include <linux/usbdevice_fs.h>

enum {
    PATIENCE = 3000, /* milliseconds in which a packet comes that is expected */
    SILENCE = 350,   /* and in which none comes that isn't */
    BLOCKS = 32,
    BULK = 3,
    INTERRUPT = 1,
    TRANSFER = 64,
    MILLISECONDS = 2000
};

static int failed(const char *what)
{
    fprintf(stderr, "peer: %s: %s\n", what, strerror(errno));
    return 1;
}

static int opened(const char *path, int flags)
{
    int file = open(path, flags, 0644);

    if (file < 0)
        exit(failed(path));
    return file;
}

static void print_text(const char *key, const unsigned char *text, size_t room)
{
    printf("%s=", key);
    for (size_t i = 0; i < room && text[i]; i++)
        printf("%02X", text[i]);
    printf("\n");
}

static void print_endpoint(const struct snd_ump_endpoint_info *it)
{
    printf("static=%u\nprotocols=%04X\nprotocol=%04X\nblocks=%u\nversion=%04X\n", it->flags & 1, it->protocol_caps, it->protocol,
           it->num_blocks, it->version);
    printf("manufacturer=%06X\nfamily=%04X\nmodel=%04X\nrevision=", it->manufacturer_id, it->family_id, it->model_id);
    for (int i = 0; i < 4; i++)
        printf("%02X", it->sw_revision[i]);
    printf("\n");
    print_text("name", it->name, sizeof it->name);
    print_text("id", it->product_id, sizeof it->product_id);
}

static void print_block(int number, const struct snd_ump_block_info *it)
{
    char key[32];

    printf("block%d.direction=%u\nblock%d.active=%u\nblock%d.first=%u\nblock%d.count=%u\n", number, it->direction, number, it->active,
           number, it->first_group, number, it->num_groups);
    printf("block%d.ci=%u\nblock%d.sysex8=%u\nblock%d.hint=%u\nblock%d.midi1=%u\n", number, it->midi_ci_version, number,
           it->sysex8_streams, number, it->ui_hint, number, it->flags);
    snprintf(key, sizeof key, "block%d.name", number);
    print_text(key, it->name, sizeof it->name);
}

/* What the kernel knows of the endpoint and its blocks, by its two ioctls. */
static int info(char **words)
{
    struct snd_ump_endpoint_info endpoint = { 0 };
    int file = opened(words[0], O_RDONLY | O_NONBLOCK);

    if (ioctl(file, SNDRV_UMP_IOCTL_ENDPOINT_INFO, &endpoint) < 0)
        return failed("ENDPOINT_INFO");
    print_endpoint(&endpoint);
    for (int number = 0; number < BLOCKS; number++) {
        struct snd_ump_block_info block = { .block_id = number };

        if (ioctl(file, SNDRV_UMP_IOCTL_BLOCK_INFO, &block) == 0)
            print_block(number, &block);
        else if (errno != ENOENT)
            return failed("BLOCK_INFO");
    }
    return 0;
}

/* Prints the packets of four words that come until there are as many as expected, and nothing more comes. */
static void print_reply(int file, size_t expected)
{
    uint32_t in[1024];
    struct pollfd ready = { file, POLLIN, 0 };
    size_t words = 0;

    while (poll(&ready, 1, words < 4 * expected ? PATIENCE : SILENCE) > 0) {
        ssize_t size = read(file, in, sizeof in);

        if (size <= 0)
            exit(failed("read"));
        for (ssize_t i = 0; i < size / 4; i++, words++)
            printf("%s%08X", words % 4 ? " " : words ? "\n  " : "  ", in[i]);
    }
    if (words)
        printf("\n");
}

/* Standard input has a question in each line: how many packets are expected, and up to four words. Prints each, and the reply. */
static int ask(char **words)
{
    char line[256];
    int file = opened(words[0], O_RDWR);

    while (fgets(line, sizeof line, stdin)) {
        uint32_t it[4] = { 0 };
        unsigned expected;

        if (sscanf(line, "%u %x %x %x %x", &expected, &it[0], &it[1], &it[2], &it[3]) < 2)
            continue;
        if (write(file, it, sizeof it) != sizeof it)
            return failed("write");
        printf("ask %08X %08X %08X %08X\n", it[0], it[1], it[2], it[3]);
        print_reply(file, expected);
    }
    return 0;
}

/* Runs a command that Ctrl-C ends as at a terminal: a shell's background commands ignore it. */
static int foreground(char **words)
{
    signal(SIGINT, SIG_DFL);
    execvp(words[0], words);
    return failed(words[0]);
}

/* Standard input goes to a device, a packet a write, with a pause of some microseconds after each. */
static int slow(char **words)
{
    static const size_t length[16] = { 1, 1, 1, 2, 2, 4, 1, 1, 2, 2, 2, 3, 3, 4, 4, 4 };
    uint32_t packet[4];
    int file = opened(words[0], O_WRONLY), nothing = 0;

    while (fread(packet, 4, 1, stdin) == 1) {
        size_t count = length[packet[0] >> 28];

        if (count > 1 && fread(packet + 1, 4, count - 1, stdin) != count - 1)
            return failed("half a packet");
        if (write(file, packet, 4 * count) != (ssize_t)(4 * count))
            return failed("write");
        usleep(atoi(words[1]));
    }
    ioctl(file, SNDRV_RAWMIDI_IOCTL_DRAIN, &nothing);
    return 0;
}

/* The record of a transfer in usbmon's binary interface (Documentation/usb/usbmon.rst of the kernel). */
struct transfer {
    uint64_t id;
    unsigned char type, kind, endpoint, device;
    uint16_t bus;
    char setup_flag, data_flag;
    int64_t seconds;
    int32_t microseconds, status;
    uint32_t length, captured;
    unsigned char setup[8];
    int32_t interval, start;
    uint32_t flags, descriptors;
};
struct fetch {
    struct transfer *head;
    void *data;
    size_t room;
};
#define FETCH _IOW(0x92, 10, struct fetch)

static volatile sig_atomic_t is_over;

static void on_end(int number)
{
    (void)number;
    is_over = 1;
}

/* The data of a bus, until SIGTERM: what devices send in FILE.in, and what they receive in FILE.out. */
static int capture(char **words)
{
    static unsigned char data[65536];
    char name[256];
    struct transfer it;
    struct fetch fetch = { &it, data, sizeof data };
    struct sigaction end = { .sa_handler = on_end };
    int bus = opened(words[0], O_RDONLY), file[2];

    for (int i = 0; i < 2; i++) {
        snprintf(name, sizeof name, "%s.%s", words[1], i ? "in" : "out");
        file[i] = opened(name, O_WRONLY | O_CREAT | O_TRUNC);
    }
    sigaction(SIGTERM, &end, NULL);
    while (!is_over) {
        int is_in;

        if (ioctl(bus, FETCH, &fetch) < 0) {
            if (errno == EINTR)
                continue;
            return failed("usbmon");
        }
        is_in = (it.endpoint & 0x80) != 0;
        /* Device 1 is the bus's own hub. What comes in is there when a transfer completes (C), what goes out when it is submitted (S). */
        if ((it.kind == BULK || it.kind == INTERRUPT) && it.device != 1 && it.type == (is_in ? 'C' : 'S') &&
            write(file[is_in], data, it.captured) != (ssize_t)it.captured)
            return failed("write");
    }
    return 0;
}

/* Standard input goes to the bulk endpoint of an interface, without the kernel's own driver. */
static int bulk(char **words)
{
    unsigned char data[TRANSFER];
    int file = opened(words[0], O_RDWR), interface = atoi(words[1]);
    struct usbdevfs_setinterface first = { interface, 0 };
    ssize_t size;

    if (ioctl(file, USBDEVFS_CLAIMINTERFACE, &interface) < 0 || ioctl(file, USBDEVFS_SETINTERFACE, &first) < 0)
        return failed("interface");
    while ((size = read(0, data, sizeof data)) > 0) {
        struct usbdevfs_bulktransfer it = { strtol(words[2], 0, 0), size, MILLISECONDS, data };

        if (ioctl(file, USBDEVFS_BULK, &it) != size)
            return failed("bulk");
    }
    return 0;
}

static const struct {
    const char *name, *use;
    int count;
    int (*run)(char **words);
} tools[] = {
    { "info", "DEVICE", 1, info },
    { "ask", "DEVICE < QUESTIONS", 1, ask },
    { "slow", "DEVICE MICROSECONDS < PACKETS", 2, slow },
    { "foreground", "COMMAND..", 1, foreground },
    { "capture", "BUS FILE", 2, capture },
    { "bulk", "DEVICE INTERFACE ENDPOINT < EVENTS", 3, bulk },
};

int main(int count, char **words)
{
    for (size_t i = 0; i < sizeof tools / sizeof *tools; i++)
        if (count > 1 && !strcmp(words[1], tools[i].name) && count - 2 >= tools[i].count)
            return tools[i].run(words + 2);
    for (size_t i = 0; i < sizeof tools / sizeof *tools; i++)
        fprintf(stderr, "peer %s %s\n", tools[i].name, tools[i].use);
    return 2;
}
