/* Input, output and the lines of the listing. */
#include "program.h"

#include <stdlib.h>
#include <string.h>

bytes lanes[16];

void must(bool holds, const char *what)
{
    if (!holds) {
        fprintf(stderr, "program: %s\n", what);
        exit(100);
    }
}

void add_bytes(bytes *to, const uint8_t *more, size_t size)
{
    if (to->capacity - to->size < size) {
        to->capacity = 2 * (to->size + size) + 4096;
        to->at = realloc(to->at, to->capacity);
        must(to->at != NULL, "no memory");
    }
    if (size > 0)
        memcpy(to->at + to->size, more, size);
    to->size += size;
}

void add_words(bytes *to, const uint32_t *words, size_t count, bool is_little)
{
    for (size_t i = 0; i < count; i++) {
        uint8_t word[4];
        for (unsigned k = 0; k < 4; k++)
            word[is_little ? k : 3 - k] = (uint8_t)(words[i] >> 8 * k);
        add_bytes(to, word, 4);
    }
}

bytes read_all(FILE *file)
{
    static uint8_t window[65536];
    bytes all = { NULL, 0, 0 };
    size_t size;

    must(file != NULL, "a file can't be opened");
    while ((size = fread(window, 1, sizeof window, file)) > 0)
        add_bytes(&all, window, size);
    must(!ferror(file), "read failed");
    return all;
}

recording read_recording(bool is_little)
{
    bytes all = read_all(stdin);
    recording it = { NULL, all.size / 4, all.size };

    it.words = malloc(4 * it.count + 4);
    must(it.words != NULL, "no memory");
    for (size_t i = 0; i < it.count; i++) {
        it.words[i] = 0;
        for (unsigned k = 0; k < 4; k++)
            it.words[i] |= (uint32_t)all.at[4 * i + k] << 8 * (is_little ? k : 3 - k);
    }
    free(all.at);
    return it;
}

void write_lanes(const char *folder)
{
    for (unsigned lane = 0; lane < 16; lane++) {
        char name[4096];
        FILE *file;
        snprintf(name, sizeof name, "%s/group-%02u.midi1", folder, lane);
        file = fopen(name, "wb");
        must(file != NULL, "a lane can't be opened");
        must(fwrite(lanes[lane].at, 1, lanes[lane].size, file) == lanes[lane].size, "a lane isn't written");
        must(fclose(file) == 0, "a lane isn't written");
        free(lanes[lane].at);
    }
}

void write_output(const bytes *output)
{
    must(fwrite(output->at, 1, output->size, stdout) == output->size && fflush(stdout) == 0,
         "the output isn't written");
    free(output->at);
}

void list(uint64_t offset, unsigned group, unsigned kind)
{
    static const char *const names[] = {
        "no-line",
        "utility",
        "stream",
        "reserved",
        "data8",
        "flex",
        "note-attribute",
        "note-controller",
        "note-bend",
        "note-management",
        "null-parameter",
        "relative-parameter",
        "misplaced-controller",
        "fine-controller",
        "stray-exclusive",
        "cut-exclusive",
        "open-exclusive",
        "stray",
        "undefined",
        "cut-message",
        "open-message",
        "ignored-data-entry",
    };

    must(kind > 0 && kind < sizeof names / sizeof names[0], "no such kind");
    if (group < 16)
        fprintf(stderr, "%llu %u %s\n", (unsigned long long)offset, group, names[kind]);
    else
        fprintf(stderr, "%llu - %s\n", (unsigned long long)offset, names[kind]);
}

void list_line(const larboardyuzu_line *line, unsigned group)
{
    if (line->kind != LARBOARDYUZU_NO_LINE)
        list(line->offset, group, line->kind);
}

bool goes_on(uint32_t status, const larboardyuzu_block *block)
{
    if (status == LARBOARDYUZU_SMALL_BUFFER)
        must(block->taken > 0 && block->refused == 0 && block->need + block->need_items > 0,
             "nothing fits");
    else
        must(block->need == 0 && block->need_items == 0, "a size is asked without a need");
    return status == LARBOARDYUZU_SMALL_BUFFER;
}

static int say_refused(const char *reason, uint64_t offset)
{
    fprintf(stderr, "refused %s at %llu\n", reason, (unsigned long long)offset);
    return 1;
}

int refused(uint32_t status, uint64_t offset)
{
    switch (status) {
    case LARBOARDYUZU_BAD_COUNT:
        return say_refused("BadCount", offset);
    case LARBOARDYUZU_HIGH_BIT:
        return say_refused("HighBit", offset);
    case LARBOARDYUZU_DATA_INCREMENT:
        return say_refused("DataIncrement", offset);
    case LARBOARDYUZU_DATA_DECREMENT:
        return say_refused("DataDecrement", offset);
    case LARBOARDYUZU_EXCLUSIVE_TOO_LONG:
        return say_refused("ExclusiveTooLong", offset);
    default:
        fprintf(stderr, "program: status %lu at %llu\n", (unsigned long)status, (unsigned long long)offset);
        exit(100);
    }
}

int refused_input(uint64_t offset)
{
    return say_refused("Truncated", offset);
}
