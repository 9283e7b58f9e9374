/* The command line: translate down, translate up, endpoint, usb split, usb pack, sysex8, and state and
 * lines, which print parts of what show prints. */
#include "program.h"

#include <stdlib.h>
#include <string.h>

static const struct {
    const char *first, *second;
    int (*run)(const options *given);
} commands[] = {
    { "translate", "down", run_down }, { "translate", "up", run_up },      { "usb", "split", run_split },
    { "usb", "pack", run_pack },       { "endpoint", NULL, run_endpoint }, { "sysex8", NULL, run_sysex8 },
    { "state", NULL, run_state },      { "lines", NULL, run_lines },
};

/* Takes an option at words[0]: how many words it has. */
static int take_option(options *given, char **words)
{
    const char *name = words[0], *value = words[1];

    if (!strcmp(name, "--compact"))
        return given->is_compact = true, 1;
    if (!strcmp(name, "--paired"))
        return given->is_paired = true, 1;
    if (!strcmp(name, "--little"))
        return given->is_little = true, 1;
    if (!strcmp(name, "--bytes"))
        return given->is_bytes = true, 1;
    if (!strcmp(name, "--single"))
        return given->is_single = true, 1;
    must(value != NULL, "an option without a value");
    if (!strcmp(name, "--folder"))
        return given->folder = value, 2;
    if (!strcmp(name, "--room"))
        return given->room = (uint32_t)strtoul(value, NULL, 10), 2;
    if (!strcmp(name, "--group") || !strcmp(name, "--cable"))
        return given->group = (uint8_t)strtoul(value, NULL, 10), 2;
    must(!strcmp(name, "--streams"), "no such option");
    return given->streams = (uint8_t)strtoul(value, NULL, 10), 2;
}

int main(int count, char **words)
{
    options given = { ".", "", LARBOARDYUZU_MOST_ROOM, 0, 16, false, false, false, false, false };
    int (*run)(const options *) = NULL;
    int at = 1;

    for (size_t i = 0; i < sizeof commands / sizeof commands[0] && run == NULL; i++) {
        int length = commands[i].second ? 2 : 1;
        if (count > length && !strcmp(words[1], commands[i].first)
            && (length == 1 || !strcmp(words[2], commands[i].second))) {
            run = commands[i].run;
            at += length;
        }
    }
    must(run != NULL, "no such command");
    if (run == run_endpoint && at < count)
        given.setup = words[at++];
    while (at < count)
        at += take_option(&given, words + at);
    return run(&given);
}
