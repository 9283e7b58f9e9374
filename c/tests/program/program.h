/* program.h: a program in C over the library that does what the program does, byte for byte, with which it
 * is compared. Each command reads all of standard input, and gives the exit code. */
#ifndef PROGRAM_H
#define PROGRAM_H

#include "larboardyuzu.h"

#include <stdio.h>

/* The words of the command line. */
typedef struct options {
    const char *folder; /* of the lanes */
    const char *setup;  /* the file of an endpoint's setup */
    uint32_t room;
    uint8_t group; /* or the cable */
    uint8_t streams;
    bool is_compact;
    bool is_paired;
    bool is_little; /* each word has its least significant byte first */
    bool is_bytes;
    bool is_single; /* a call for each packet or byte, instead of block calls */
} options;

/* Bytes that grow. */
typedef struct bytes {
    uint8_t *at;
    size_t size;
    size_t capacity;
} bytes;

void add_bytes(bytes *to, const uint8_t *more, size_t size);
void add_words(bytes *to, const uint32_t *words, size_t count, bool is_little);

/* All of a file. */
bytes read_all(FILE *file);

/* All words of a recording; the bytes after the last whole word are left out. */
typedef struct recording {
    uint32_t *words;
    size_t count;
    size_t size; /* how many bytes it has */
} recording;
recording read_recording(bool is_little);

/* The sixteen lanes of a folder, and standard output. */
extern bytes lanes[16];
void write_lanes(const char *folder);
void write_output(const bytes *output);

/* A line of the listing, with the group, or 255 for none. */
void list(uint64_t offset, unsigned group, unsigned kind);
void list_line(const larboardyuzu_line *line, unsigned group);

/* The last line of a run that is refused: the exit code. */
int refused(uint32_t status, uint64_t offset);
int refused_input(uint64_t offset);

/* Whether there is more to take after a block call. */
bool goes_on(uint32_t status, const larboardyuzu_block *block);

/* Ends the run if a call returns what it must not. */
void must(bool holds, const char *what);

int run_down(const options *given);
int run_up(const options *given);
int run_endpoint(const options *given);
int run_split(const options *given);
int run_pack(const options *given);
int run_sysex8(const options *given);
int run_state(const options *given);
int run_lines(const options *given);

#endif
