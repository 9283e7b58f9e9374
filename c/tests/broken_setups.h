/* broken_setups.h: setups that break a rule. */
#ifndef BROKEN_SETUPS_H
#define BROKEN_SETUPS_H

#include "setup.h"

#include <stdint.h>
#include <string.h>

/* The setup with one part replaced: docs/setup.md says which rule each breaks. */
static const struct {
    const char *part, *broken;
    uint8_t rule;
} broken_setups[] = {
    { "name = \"Demo Endpoint X\"", "name = \"\"", 2 },
    { "id = \"SN-0001\"", "id = \"\"", 3 },
    { "family = 1", "family = 16384", 5 },
    { "model = 2", "model = 16384", 6 },
    { "protocol = 2", "protocol = 3", 9 },
    { "static = true", "static = 1", 10 },
    { "active = true", "active = 1", 12 },
    { "name = \"Main\"", "name = \"\"", 13 },
    { "hint = 3", "hint = 4", 14 },
    { "midi1 = 0", "midi1 = 3", 15 },
    { "direction = 3", "direction = 0", 16 },
    { "first = 0", "first = 16", 17 },
    { "count = 1", "count = 0", 18 },
    { "ci = 2", "ci = 3", 19 },
    { "sysex8 = 0", "sysex8 = 256", 20 },
    { "muids = [19088743, 300]", "muids = []", 21 },
    { "muids = [19088743, 300]", "muids = [300, 300]", 23 },
    { "block = 0", "block = 1", 25 },
    { "place = \"channel\"", "place = \"lane\"", 26 },
    { "group = 0", "group = 1", 27 },
    { "channel = 2", "channel = 16", 28 },
    { "id = [126, 0, 1, 1, 0]", "id = [128, 0, 1, 1, 0]", 29 },
    { "on = false", "on = 0", 30 },
};

/* Writes such a setup: its size. */
static size_t break_setup(size_t which, char *text)
{
    const char *part = strstr(setup, broken_setups[which].part);
    size_t before = (size_t)(part - setup), length = strlen(broken_setups[which].broken);
    const char *after = part + strlen(broken_setups[which].part);

    memcpy(text, setup, before);
    memcpy(text + before, broken_setups[which].broken, length);
    memcpy(text + before + length, after, strlen(after));
    return before + length + strlen(after);
}

#endif
