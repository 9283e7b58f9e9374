/* subjects.h: the seven kinds of handles, with what a test does with each in the same way: open, one packet
 * or byte, a block, the reads, reset and close. */
#ifndef SUBJECTS_H
#define SUBJECTS_H

#include "larboardyuzu.h"

enum {
    ITEMS = 9,     /* the most items of a block */
    MOST_ROOM = 40 /* the greatest room of these tests */
};

typedef union handle {
    larboardyuzu_down down;
    larboardyuzu_up up;
    larboardyuzu_parser parser;
    larboardyuzu_endpoint endpoint;
    larboardyuzu_state state;
    larboardyuzu_sysex8 sysex8;
    larboardyuzu_usb usb;
} handle;

/* What packets or bytes led to. */
typedef union items {
    larboardyuzu_piece pieces[ITEMS];
    larboardyuzu_outcome outcomes[ITEMS];
    larboardyuzu_replies replies[ITEMS];
    larboardyuzu_part parts[ITEMS];
} items;

/* The first buffer: bytes or words. */
typedef union places {
    uint8_t bytes[4 * 1100]; /* (of rooms up to 1,024) */
    uint32_t words[1100];
} places;

/* The input: words or bytes. */
typedef union input {
    const uint32_t *words;
    const uint8_t *bytes;
} input;

typedef struct subject {
    const char *name;
    bool takes_words;
    bool has_buffers;
    bool every_item;               /* each packet has an item; otherwise each byte that led to something */
    size_t place;                  /* the bytes of a place of the first buffer */
    size_t item;                   /* the bytes of an item */
    size_t (*most)(uint32_t room); /* the places that one packet or byte may need */
    uint32_t (*open)(handle *it, uint32_t room, uint32_t flags);
    uint32_t (*one)(handle *it, input in, size_t count, uint64_t offset, places *out, size_t size,
                    items *item);
    uint32_t (*many)(handle *it, input in, size_t count, uint64_t offset, places *out, size_t size,
                     items *all, size_t item_count, larboardyuzu_block *block);
    bool (*reads_same)(const handle *a, const handle *b);
    uint32_t (*reset)(handle *it);
    void (*close)(handle *it);
    uint32_t flags; /* those that its open has */
} subject;

enum {
    SUBJECTS = 8
};
extern const subject subjects[SUBJECTS];

/* Whether two items are the same. */
bool is_same_item(const subject *it, const items *a, size_t at, const items *b, size_t other);

/* How many places an item says were written, and whether there is anything to say of it. */
size_t written_of(const subject *it, const items *all, size_t at);
bool says_something(const subject *it, const items *all, size_t at);

/* Numbers that look random, the same in each run. */
uint32_t random_number(void);

/* Whole packets, the last one of a word's length if another doesn't fit; and bytes. */
void random_words(uint32_t *words, size_t count);
void random_bytes(uint8_t *bytes, size_t count);

#endif
