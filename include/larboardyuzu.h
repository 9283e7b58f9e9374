/* larboardyuzu.h: MIDI 2.0 packets (UMP), MIDI 1.0 bytes, MIDI-CI, 8-bit exclusives and USB-MIDI events,
 * implemented by proved code. docs/c-library.md lists each call's statuses, the memory and stack that each
 * kind of handle needs, and what is proved.
 *
 * A handle is a struct owned by the caller. It is all zeros while closed: start from LARBOARDYUZU_CLOSED,
 * open it, use it, close it. Closing a closed handle does nothing. Calls ending in _open allocate all the
 * memory that the handle will ever need, and calls ending in _close free it; no other call allocates.
 *
 * Every call returns an enum larboardyuzu_status, whatever its arguments, except calls ending in _close or
 * _size, larboardyuzu_version and larboardyuzu_words_in_packet. A call over packets or bytes tests the handle
 * first, then the buffers, then the input, and returns the first reason to refuse. A call that refuses writes
 * nothing to its buffers, and zeroes the result struct, except the fields whose comments say otherwise. A
 * block call keeps what it wrote before the refusal.
 *
 * The caller must guarantee the following, which the library can't check:
 *  - A handle is all zero before it is opened, and nobody else writes into it. It may be moved: copy it, and
 *    use only the copy from then on. Handles don't depend on each other.
 *  - Only one call at a time may use a handle, even if the parameter is const, because such a call may write
 *    to the handle and restore it. So keep every handle, even a closed one, in writable memory, and use a
 *    lock or a join between the calls of different threads.
 *  - A pointer may be null if its count is 0. Every other pointer is not null, is aligned for its type, and
 *    points to at least that many elements. Output buffers must not overlap any other argument.
 *  - Inputs must be initialized, and nothing (no other thread, no device) may change them during the call.
 *    Outputs may be uninitialized.
 *  - If a program defines the functions of larboardyuzu_heap.h itself, they must be safe for all threads that
 *    open or close handles.
 *  - No call, not even one ending in _reset, is made from a signal handler, or in the forked child of a
 *    process with several threads. An audio thread may make every call that doesn't end in _open or _close:
 *    such a call neither allocates nor blocks. The longest are those that complete an exclusive, if it is a
 *    long one, and _reset of up and of state, which write the whole table.
 *  - An interrupt handler, without an operating system or with one, may make the same calls over handles
 *    that nobody else uses, even if it interrupts a call over another handle. It keeps all vector registers
 *    (on ARM q0 to q31), which the library uses for copies, and has the stack that docs/c-library.md gives.
 *    If the processor is x86-64, the handler has a separate stack (IST), because the library uses the 128
 *    bytes below the stack pointer, or the archive is built without that (make -C c CODE=no-red-zone).
 *  - The processor is 64-bit x86 with SSE4.2, or 64-bit ARM. Without an operating system its vector
 *    registers are on. On ARM the MMU is on, too, all of this memory is Normal memory, and unaligned
 *    accesses are allowed (SCTLR_ELx.A is 0).
 *
 * Many packets or bytes in one call: the calls that end in _packets or _bytes. All of them stop in the same
 * ways (larboardyuzu_block), so this loop continues after every refusal and every full buffer:
 *
 *     size_t at = 0;
 *     uint32_t status;
 *     do {
 *         status = larboardyuzu_down_packets(&down, words + at, count - at, offset + 4 * at, bytes, size,
 *                                            pieces, piece_count, &block);
 *         use(bytes, block.written, pieces, block.items);
 *         if (block.refused > 0)
 *             report(status, at + block.taken - block.refused);
 *         at += block.taken;
 *     } while (status != LARBOARDYUZU_DONE && block.taken > 0);
 *
 * If status isn't LARBOARDYUZU_DONE after the loop, it says why:
 *  - LARBOARDYUZU_BAD_WORD_COUNT: the words from `at` on are the beginning of a packet. Pass them again with
 *    the rest of it.
 *  - LARBOARDYUZU_SMALL_BUFFER: not even an empty buffer is large enough (block.need, block.need_items).
 *  - any other: the handle is closed or of another kind.
 */
#ifndef LARBOARDYUZU_H
#define LARBOARDYUZU_H

#include <stdbool.h>
#include <stddef.h>
#include <stdint.h>

#if UINTPTR_MAX != UINT64_MAX
#error "larboardyuzu needs a 64-bit processor: its archives and structs are for 64-bit x86 and 64-bit ARM"
#endif

#ifdef __cplusplus
extern "C" {
#endif

/* The version of this header: the major number times 65,536, the minor one times 256, and the patch.
 * Names, statuses, arguments and the sizes of the structs are the binary interface. It changes only when
 * the major number does or, while the major number is 0, when the minor one does. */
#define LARBOARDYUZU_VERSION 0x000300u

/* Returns the version of the library that is linked. */
uint32_t larboardyuzu_version(void);

/* Whether the linked library has the binary interface of this header. A program or plugin that may meet
 * another version of the shared library calls it once, before any other call. */
#define LARBOARDYUZU_IS_COMPATIBLE() (larboardyuzu_version() >> 8 == LARBOARDYUZU_VERSION >> 8)

enum larboardyuzu_status {
    LARBOARDYUZU_DONE = 0,
    LARBOARDYUZU_NO_MEMORY = 1,
    LARBOARDYUZU_HANDLE_CLOSED = 2,
    LARBOARDYUZU_ALREADY_OPEN = 3,
    LARBOARDYUZU_BAD_ROOM = 4,            /* room, or a state's notes or params, is out of its range */
    LARBOARDYUZU_BAD_WORD_COUNT = 5,      /* the first word's message type has another number of words */
    LARBOARDYUZU_SMALL_BUFFER = 6,        /* a buffer is too small; `need` is a sufficient size */
    LARBOARDYUZU_BAD_COUNT = 7,           /* a 7-bit exclusive packet counts more than six bytes */
    LARBOARDYUZU_HIGH_BIT = 8,            /* a data byte is 128 or more */
    LARBOARDYUZU_DATA_INCREMENT = 9,      /* control change 96, which has no translation */
    LARBOARDYUZU_DATA_DECREMENT = 10,     /* control change 97, which has no translation */
    LARBOARDYUZU_EXCLUSIVE_TOO_LONG = 11, /* an exclusive has more than room bytes, and is dropped */
    LARBOARDYUZU_BAD_GROUP = 12,          /* a group or a cable isn't 0 to 15 */
    LARBOARDYUZU_NOTHING = 13,            /* the requested item doesn't exist */
    LARBOARDYUZU_OTHER_KIND = 14,         /* the handle was opened by another kind of _open */
    LARBOARDYUZU_BAD_STREAMS = 15,        /* not 1 to 64 streams */
    LARBOARDYUZU_SETUP_SYNTAX = 16,       /* the setup isn't UTF-8, or isn't TOML */
    LARBOARDYUZU_SETUP_RULE = 17,         /* the setup breaks a rule, whose number is returned */
    LARBOARDYUZU_BAD_BITS = 18,           /* there is no scaling between these widths */
    LARBOARDYUZU_BAD_VALUE = 19,          /* the value has more bits than its width */
    LARBOARDYUZU_STATE_FULL = 20,         /* the message adds to a list of the state that is full; reset it */
    LARBOARDYUZU_BAD_FLAGS = 21,          /* a flag that the call doesn't have */
    LARBOARDYUZU_BAD_SIZE = 22,           /* not the number of bytes that the call requires */
    LARBOARDYUZU_BAD_CHANNEL = 23         /* a channel isn't 0 to 15 or LARBOARDYUZU_NO_CHANNEL */
};

/* Flags, combined with |. Each _open documents the ones it accepts. */
enum larboardyuzu_flag {
    LARBOARDYUZU_COMPACT = 1,      /* leave out bytes that the receiver of a stream already knows */
    LARBOARDYUZU_PAIRED = 2,       /* controllers n and n + 32 are one controller of fourteen bits */
    LARBOARDYUZU_OF_BYTES = 4,     /* the input is the bytes of one MIDI 1.0 stream, not packets */
    LARBOARDYUZU_LITTLE_ENDIAN = 8 /* words are least significant byte first */
};

/* A handle of any kind, closed. */
#ifdef __cplusplus
#define LARBOARDYUZU_CLOSED { nullptr, 0 }
#else
#define LARBOARDYUZU_CLOSED { NULL, 0 }
#endif

/* The range of room, the most bytes of an exclusive between F0 and F7 (own rule). A longer exclusive is
 * dropped. An endpoint reports its room to peers, in its Discovery Reply. */
#define LARBOARDYUZU_LEAST_ROOM 6u
#define LARBOARDYUZU_MOST_ROOM 1048576u

/* The kind of a line of the listing, which reports something that couldn't be translated. docs/output.md has
 * a sentence for each. */
enum larboardyuzu_kind {
    LARBOARDYUZU_NO_LINE = 0,
    LARBOARDYUZU_UTILITY = 1,
    LARBOARDYUZU_STREAM = 2,
    LARBOARDYUZU_RESERVED = 3,
    LARBOARDYUZU_DATA8 = 4,
    LARBOARDYUZU_FLEX = 5,
    LARBOARDYUZU_NOTE_ATTRIBUTE = 6,
    LARBOARDYUZU_NOTE_CONTROLLER = 7,
    LARBOARDYUZU_NOTE_BEND = 8,
    LARBOARDYUZU_NOTE_MANAGEMENT = 9,
    LARBOARDYUZU_NULL_PARAMETER = 10,
    LARBOARDYUZU_RELATIVE_PARAMETER = 11,
    LARBOARDYUZU_MISPLACED_CONTROLLER = 12,
    LARBOARDYUZU_FINE_CONTROLLER = 13,
    LARBOARDYUZU_STRAY_EXCLUSIVE = 14,
    LARBOARDYUZU_CUT_EXCLUSIVE = 15,
    LARBOARDYUZU_OPEN_EXCLUSIVE = 16,
    LARBOARDYUZU_STRAY = 17,
    LARBOARDYUZU_UNDEFINED = 18,
    LARBOARDYUZU_CUT_MESSAGE = 19,
    LARBOARDYUZU_OPEN_MESSAGE = 20,
    LARBOARDYUZU_IGNORED_DATA_ENTRY = 21
};

/* A line of the listing, of the group or cable of its handle. */
typedef struct larboardyuzu_line {
    uint64_t offset; /* offset of the reported packet or byte, in the caller's numbering */
    uint8_t kind;    /* enum larboardyuzu_kind */
} larboardyuzu_line;

/* The result of one byte: for up, parser and usb. After a refusal nothing is written and both lines are
 * empty. */
typedef struct larboardyuzu_outcome {
    size_t written;           /* elements written to the buffer: words (up) or bytes (parser, usb) */
    size_t need;              /* with LARBOARDYUZU_SMALL_BUFFER, a sufficient size; otherwise 0 */
    uint64_t offset;          /* of the byte, as the caller numbered it, also after a refusal; 0 if the handle
                               * is closed or of another kind */
    larboardyuzu_line first;  /* the message that this byte cut off, or else the line for the byte itself */
    larboardyuzu_line second; /* the line for the byte itself, if it also cut a message off */
} larboardyuzu_outcome;

/* The progress of a block call, that is, a call over many packets or bytes. A block call has one or two
 * output buffers. The first receives the translated data. The second receives one item per packet, or one per
 * byte that completes a message or produces a line. The call returns
 *  - LARBOARDYUZU_DONE if all of the input was taken;
 *  - LARBOARDYUZU_SMALL_BUFFER before a packet or byte if the rest of the first buffer is smaller than what
 *    this header requires for one packet or byte, such as LARBOARDYUZU_DOWN_SIZE(room), or if the second
 *    buffer is full;
 *  - LARBOARDYUZU_BAD_WORD_COUNT before a last packet whose words aren't all there;
 *  - the status of the first packet or byte that is refused. It counts as taken: the next call continues
 *    after it. Nothing was written for it, and it has no item. */
typedef struct larboardyuzu_block {
    size_t taken;      /* words or bytes taken from the front of the input, including a refused one */
    size_t written;    /* places written to the first buffer */
    size_t items;      /* items written to the second buffer */
    size_t refused;    /* the size of the refused packet or byte, which is the last part of `taken`; otherwise
                        * 0 */
    size_t need;       /* with SMALL_BUFFER, if the first buffer is too small: the size that an empty buffer
                        * must have; otherwise 0 */
    size_t need_items; /* with SMALL_BUFFER, if the second buffer is full: 1; otherwise 0 */
} larboardyuzu_block;

/* ---- Down: packets to MIDI 1.0 bytes ---- */

typedef struct larboardyuzu_down {
    void *memory;   /* private */
    size_t is_open; /* private */
} larboardyuzu_down;

/* The result of one packet. */
typedef struct larboardyuzu_piece {
    size_t written;  /* number of MIDI 1.0 bytes, of up to four messages (a parameter; a bank and a program
                      * are three). Without LARBOARDYUZU_COMPACT each begins with its status byte, so a host
                      * whose events hold one message cuts the bytes there. 0 if the packet has no
                      * translation, or if its exclusive isn't complete yet */
    size_t need;     /* with LARBOARDYUZU_SMALL_BUFFER, a sufficient size; otherwise 0 */
    uint64_t offset; /* the offset of the line: of this packet or, for a cut exclusive, of the exclusive's
                      * first packet; 0 if there is no line */
    uint8_t lane;    /* the group whose MIDI 1.0 stream the bytes belong to, 0 to 15; 0 if there are none */
    uint8_t kind;    /* kind of its line, enum larboardyuzu_kind */
    uint8_t group;   /* group of its line; 255 without a line, after a refusal, and for utility, stream and
                      * reserved packets */
} larboardyuzu_piece;

/* The size of a buffer for the bytes of one packet. A smaller buffer is always refused. A host whose buffer
 * is smaller must translate into its own buffer and copy. */
#define LARBOARDYUZU_DOWN_SIZE(room) ((room) < 10 ? 12 : (room) + 2)
size_t larboardyuzu_down_size(uint32_t room);

/* room: the most bytes of an exclusive; each of the sixteen groups has that much memory.
 * flags: LARBOARDYUZU_COMPACT, LARBOARDYUZU_PAIRED. */
uint32_t larboardyuzu_down_open(larboardyuzu_down *down, uint32_t room, uint32_t flags);

/* Processes one packet. The offset may be any number, such as the frame at which the packet is due; it is
 * only returned in lines. */
uint32_t larboardyuzu_down_packet(larboardyuzu_down *down, const uint32_t *words, size_t count,
                                  uint64_t offset, uint8_t *bytes, size_t size, larboardyuzu_piece *piece);

/* Processes consecutive packets. `offset` is the first packet's offset; it grows by 4 per word and wraps
 * around at 2^64. Their bytes are written one after the other to `bytes`, and pieces[i] is the piece of
 * packet i. */
uint32_t larboardyuzu_down_packets(larboardyuzu_down *down, const uint32_t *words, size_t count,
                                   uint64_t offset, uint8_t *bytes, size_t size, larboardyuzu_piece *pieces,
                                   size_t piece_count, larboardyuzu_block *block);

/* Writes the offset of the packet that began the exclusive that a group has open. LARBOARDYUZU_NOTHING: none
 * is open. */
uint32_t larboardyuzu_down_begun(const larboardyuzu_down *down, uint8_t group, uint64_t *offset);

/* Resets the handle to its state just after _open, without allocating: no exclusive is open, and
 * with LARBOARDYUZU_COMPACT nothing is assumed to be known to the receiver. */
uint32_t larboardyuzu_down_reset(larboardyuzu_down *down);

void larboardyuzu_down_close(larboardyuzu_down *down);

/* ---- Up: MIDI 1.0 bytes to packets ---- */

typedef struct larboardyuzu_up {
    void *memory;   /* private */
    size_t is_open; /* private */
} larboardyuzu_up;

/* The buffer size, in words, for the output of one byte. A smaller one is refused, whatever the byte is. */
#define LARBOARDYUZU_UP_SIZE(room) ((room) <= 12 ? 4 : ((room) + 5) / 6 * 2)
size_t larboardyuzu_up_size(uint32_t room);

/* group: the group of the packets to write, 0 to 15. flags: LARBOARDYUZU_PAIRED. */
uint32_t larboardyuzu_up_open(larboardyuzu_up *up, uint8_t group, uint32_t room, uint32_t flags);

/* Processes one byte, and writes the words that it completes: one packet, or all those of an exclusive, each
 * of larboardyuzu_words_in_packet words. */
uint32_t larboardyuzu_up_byte(larboardyuzu_up *up, uint8_t byte, uint64_t offset, uint32_t *words,
                              size_t size, larboardyuzu_outcome *outcome);

/* Processes consecutive bytes. `offset` is the first byte's offset; it grows by 1 per byte and wraps around
 * at 2^64. The words follow each other in `words`. A byte that completes a packet or has a line has an
 * outcome, whose offset says which byte. */
uint32_t larboardyuzu_up_bytes(larboardyuzu_up *up, const uint8_t *bytes, size_t count, uint64_t offset,
                               uint32_t *words, size_t size, larboardyuzu_outcome *outcomes,
                               size_t outcome_count, larboardyuzu_block *block);

/* Writes the line for the message or exclusive that is still open at the end of the stream, with the offset
 * of its first byte. LARBOARDYUZU_NOTHING: none is open, and the line is unchanged. */
uint32_t larboardyuzu_up_end(const larboardyuzu_up *up, larboardyuzu_line *line);

/* Resets the handle to its state just after _open, without allocating: no message has begun, no parameter is
 * selected, and no controller has a value. */
uint32_t larboardyuzu_up_reset(larboardyuzu_up *up);

void larboardyuzu_up_close(larboardyuzu_up *up);

/* ---- The parser of MIDI 1.0 bytes ---- */

typedef struct larboardyuzu_parser {
    void *memory;   /* private */
    size_t is_open; /* private */
} larboardyuzu_parser;

/* The size of a buffer for one message. A smaller one is refused, whatever the byte is. */
#define LARBOARDYUZU_PARSER_SIZE(room) ((room) + 2)
size_t larboardyuzu_parser_size(uint32_t room);

uint32_t larboardyuzu_parser_open(larboardyuzu_parser *parser, uint32_t room);

/* Processes one byte. The completed message is written in full: with its status byte even under running
 * status, and an exclusive with F0 and F7. */
uint32_t larboardyuzu_parser_byte(larboardyuzu_parser *parser, uint8_t byte, uint64_t offset,
                                  uint8_t *message, size_t size, larboardyuzu_outcome *outcome);

/* Processes consecutive bytes. The messages are written one after the other to `messages`. A byte that
 * completes a message or has a line has an outcome. */
uint32_t larboardyuzu_parser_bytes(larboardyuzu_parser *parser, const uint8_t *bytes, size_t count,
                                   uint64_t offset, uint8_t *messages, size_t size,
                                   larboardyuzu_outcome *outcomes, size_t outcome_count,
                                   larboardyuzu_block *block);

/* The same as larboardyuzu_up_end. */
uint32_t larboardyuzu_parser_end(const larboardyuzu_parser *parser, larboardyuzu_line *line);

/* Resets the handle to its state just after _open, without allocating. */
uint32_t larboardyuzu_parser_reset(larboardyuzu_parser *parser);

void larboardyuzu_parser_close(larboardyuzu_parser *parser);

/* ---- The endpoint: replies to a peer's stream messages and MIDI-CI messages ---- */

typedef struct larboardyuzu_endpoint {
    void *memory;   /* private */
    size_t is_open; /* private */
} larboardyuzu_endpoint;

/* The endpoint's reaction to a stream message or a complete exclusive. docs/midi-ci.md explains each word. */
enum larboardyuzu_heard {
    LARBOARDYUZU_HEARD_NOTHING = 0, /* the packet is neither a stream message nor the end of an exclusive */
    LARBOARDYUZU_HEARD_NOT_CI = 1,
    LARBOARDYUZU_HEARD_SHORT = 2,
    LARBOARDYUZU_HEARD_BAD_ADDRESS = 3,
    LARBOARDYUZU_HEARD_RESERVED_MUID = 4,
    LARBOARDYUZU_HEARD_NO_BLOCK = 5,
    LARBOARDYUZU_HEARD_SILENT = 6,
    LARBOARDYUZU_HEARD_COLLISION = 7,
    LARBOARDYUZU_HEARD_OLD_VERSION = 8,
    LARBOARDYUZU_HEARD_NOT_OURS = 9,
    LARBOARDYUZU_HEARD_MOVED = 10,
    LARBOARDYUZU_HEARD_REPORT = 11,
    LARBOARDYUZU_HEARD_BROADCAST = 12,
    LARBOARDYUZU_HEARD_ANSWERED = 13,
    LARBOARDYUZU_HEARD_PASSED = 14,
    LARBOARDYUZU_HEARD_NAK = 15,
    LARBOARDYUZU_HEARD_NO_ANSWER = 16,
    LARBOARDYUZU_HEARD_BAD_FORMAT = 17
};

/* The most words of the replies to one packet, and the most bytes of the text of a setup. */
#define LARBOARDYUZU_MOST_REPLY_WORDS 1024u
#define LARBOARDYUZU_MOST_SETUP_BYTES 65536u

/* The result of one packet. */
typedef struct larboardyuzu_replies {
    size_t written;  /* words of replies: whole packets, in the order of sending */
    size_t need;     /* with LARBOARDYUZU_SMALL_BUFFER, a sufficient size; otherwise 0 */
    uint64_t offset; /* the offset of the line: of this packet if it is stray; of the first packet of the
                      * exclusive that it cuts off; otherwise 0 */
    uint8_t heard;   /* enum larboardyuzu_heard */
    uint8_t group;   /* the group, if the packet is part of an exclusive; otherwise, and after a refusal,
                      * 255 */
    uint8_t kind;    /* of its line, enum larboardyuzu_kind */
} larboardyuzu_replies;

/* text: the setup, in TOML (docs/setup.md). rule: with LARBOARDYUZU_SETUP_RULE the number of the first
 * rule that it breaks, 0 to 31; otherwise unchanged. */
uint32_t larboardyuzu_endpoint_open(larboardyuzu_endpoint *endpoint, const uint8_t *text, size_t size,
                                    uint32_t room, uint8_t *rule);

/* Processes one packet from the peer. LARBOARDYUZU_MOST_REPLY_WORDS are enough for any replies; a smaller
 * buffer is refused.
 *
 * No call switches a profile or the protocol from the device's own panel. If a player does so, pass the
 * endpoint the message that a peer would send (Set Profile On or Off, Stream Configuration Request), and send
 * the reply to the peers: examples/c/panel.c. Wait if the group has an open exclusive
 * (larboardyuzu_endpoint_begun), since the panel's exclusive would cut that one off. */
uint32_t larboardyuzu_endpoint_packet(larboardyuzu_endpoint *endpoint, const uint32_t *words, size_t count,
                                      uint64_t offset, uint32_t *reply, size_t size,
                                      larboardyuzu_replies *replies);

/* Processes consecutive packets from the peer. `offset` is the first packet's offset; it grows by 4 per word.
 * Their replies are written one after the other to `reply`, and replies[i] is the result of packet i. */
uint32_t larboardyuzu_endpoint_packets(larboardyuzu_endpoint *endpoint, const uint32_t *words, size_t count,
                                       uint64_t offset, uint32_t *reply, size_t size,
                                       larboardyuzu_replies *replies, size_t reply_count,
                                       larboardyuzu_block *block);

/* Writes the protocol in force: 1 for MIDI 1.0, 2 for MIDI 2.0. */
uint32_t larboardyuzu_endpoint_protocol(const larboardyuzu_endpoint *endpoint, uint8_t *protocol);

/* Writes the current MUID of function block number `block`, from 0. LARBOARDYUZU_NOTHING: the block has no
 * MIDI-CI or has used up its MUIDs, or there is no such block. */
uint32_t larboardyuzu_endpoint_muid(const larboardyuzu_endpoint *endpoint, uint8_t block, uint32_t *muid);

/* A profile of the setup. With LARBOARDYUZU_NOTHING block, group and channel are 255. */
typedef struct larboardyuzu_profile {
    uint8_t block;   /* its function block, counted from 0 */
    uint8_t group;   /* its group; 255 if it is of the whole function block */
    uint8_t channel; /* its channel; 255 if it is of the whole group or function block */
    uint8_t id[5];
    bool is_on; /* now */
} larboardyuzu_profile;

/* Writes a profile, counted from 0 in the order of the setup. LARBOARDYUZU_NOTHING: there is none. */
uint32_t larboardyuzu_endpoint_profile(const larboardyuzu_endpoint *endpoint, size_t index,
                                       larboardyuzu_profile *profile);

/* Writes the offset of the packet that began the exclusive that a group has open. LARBOARDYUZU_NOTHING: none
 * is open. */
uint32_t larboardyuzu_endpoint_begun(const larboardyuzu_endpoint *endpoint, uint8_t group, uint64_t *offset);

/* Resets the handle to its state just after _open with the same setup, without allocating: protocol, MUIDs
 * and profiles are those of the setup again, and no exclusive is open. To use other MUIDs, close the handle
 * and open it with another setup. */
uint32_t larboardyuzu_endpoint_reset(larboardyuzu_endpoint *endpoint);

void larboardyuzu_endpoint_close(larboardyuzu_endpoint *endpoint);

/* ---- The running state: the state in which the messages so far leave a receiver ---- */

typedef struct larboardyuzu_state {
    void *memory;   /* private */
    size_t is_open; /* private */
} larboardyuzu_state;

enum larboardyuzu_fact_kind {
    LARBOARDYUZU_FACT_ON = 0,         /* a note on, even if the key has since been released: number is the
                                       * note, value its velocity */
    LARBOARDYUZU_FACT_OFF = 1,        /* a note off: number is the note, value its velocity */
    LARBOARDYUZU_FACT_MODE = 2,       /* a channel mode message: number is 120 to 127, with a value */
    LARBOARDYUZU_FACT_POLY = 3,       /* the pressure of a key: number is the note */
    LARBOARDYUZU_FACT_CONTROL = 4,    /* a controller: number is its index */
    LARBOARDYUZU_FACT_PRESSURE = 5,   /* the pressure of the channel, unless it is 0 */
    LARBOARDYUZU_FACT_BEND = 6,       /* the bend, unless it is at its centre */
    LARBOARDYUZU_FACT_PROGRAM = 7,    /* the program: number, and its bank in bank and bank_lsb if has_bank */
    LARBOARDYUZU_FACT_REGISTERED = 8, /* a registered parameter: bank and number; has_value; is_loose */
    LARBOARDYUZU_FACT_ASSIGNABLE = 9, /* an assignable parameter */
    LARBOARDYUZU_FACT_SYSTEM = 10,    /* count: of system common messages and exclusives */
    LARBOARDYUZU_FACT_REAL_TIME = 11  /* count: of system Real Time messages */
};

typedef struct larboardyuzu_fact {
    uint64_t count;   /* of system messages, at most 2^64 - 1 */
    uint32_t value;   /* 7 or 14 bits wide if the state takes bytes, 16 or 32 if it takes packets; 0 if there
                       * is no value */
    uint8_t kind;     /* enum larboardyuzu_fact_kind */
    uint8_t group;    /* 0 to 15 */
    uint8_t channel;  /* 0 to 15; of system messages 0 */
    uint8_t number;   /* 0 to 127; of a parameter the LSB of its number */
    uint8_t bank;     /* the MSB of a program's bank, or of a parameter's number */
    uint8_t bank_lsb; /* the LSB of a program's bank */
    bool has_bank;    /* a bank was selected for the program */
    bool has_value;   /* whether there is a value; always false for a program and for system messages */
    bool is_loose;    /* a relative change has been received since the value was set */
} larboardyuzu_fact;

/* The maximum of `notes` and `params` in larboardyuzu_state_open. */
#define LARBOARDYUZU_MOST_NOTES 1048576u
#define LARBOARDYUZU_MOST_PARAMS 16384u

/* Pass this as the channel to get the group's facts that belong to no channel. */
#define LARBOARDYUZU_NO_CHANNEL 255u

/* Opens a state.
 *  - notes: the capacity, per channel, of the list of note on, note off and mode messages; may be 0. The list
 *    is a history in order of arrival: a note off removes nothing, and once the list is full, further
 *    messages are refused until the state is reset. If a state follows a live stream for ever,
 *    open it with notes 0, and go on when a call returns LARBOARDYUZU_STATE_FULL: the state then keeps
 *    controllers, programs and bends.
 *  - params: the most parameters of each kind and channel; may be 0.
 *  - flags: LARBOARDYUZU_OF_BYTES if the state takes the bytes of one stream, whose facts are of group 0;
 *    otherwise it takes packets. */
uint32_t larboardyuzu_state_open(larboardyuzu_state *state, uint32_t room, uint32_t notes, uint32_t params,
                                 uint32_t flags);

/* Processes one packet. LARBOARDYUZU_STATE_FULL: the packet needs a place in a list that is full; nothing has
 * changed. */
uint32_t larboardyuzu_state_packet(larboardyuzu_state *state, const uint32_t *words, size_t count);

/* Processes consecutive packets. The block has no buffers. */
uint32_t larboardyuzu_state_packets(larboardyuzu_state *state, const uint32_t *words, size_t count,
                                    larboardyuzu_block *block);

/* Processes one byte. LARBOARDYUZU_STATE_FULL: the completed message would add to a full list and isn't kept;
 * the byte counts as taken. */
uint32_t larboardyuzu_state_byte(larboardyuzu_state *state, uint8_t byte);

/* Processes consecutive bytes. The block has no buffers. */
uint32_t larboardyuzu_state_bytes(larboardyuzu_state *state, const uint8_t *bytes, size_t count,
                                  larboardyuzu_block *block);

/* Writes the facts of one channel, 0 to 15, of a group, in the order of `show --state`; with
 * LARBOARDYUZU_NO_CHANNEL the counts of the group's system messages. written: the number of facts
 * written. need: with LARBOARDYUZU_SMALL_BUFFER, how many facts there are; otherwise 0. */
uint32_t larboardyuzu_state_facts(const larboardyuzu_state *state, uint8_t group, uint8_t channel,
                                  larboardyuzu_fact *facts, size_t size, size_t *written, size_t *need);

/* Resets the handle to its state just after _open, without allocating: a state without facts. */
uint32_t larboardyuzu_state_reset(larboardyuzu_state *state);

void larboardyuzu_state_close(larboardyuzu_state *state);

/* ---- 8-bit exclusives (SysEx8) of many streams, joined ---- */

typedef struct larboardyuzu_sysex8 {
    void *memory;   /* private */
    size_t is_open; /* private */
} larboardyuzu_sysex8;

enum larboardyuzu_joined {
    LARBOARDYUZU_JOINED_OTHER = 0,           /* the packet has no part of an 8-bit exclusive */
    LARBOARDYUZU_JOINED_HELD = 1,            /* its part is kept */
    LARBOARDYUZU_JOINED_WHOLE = 2,           /* it ends an exclusive */
    LARBOARDYUZU_JOINED_STRAY = 3,           /* it continues or ends an exclusive, but none is open */
    LARBOARDYUZU_JOINED_RESTARTED = 4,       /* it begins one, and cuts off the one that began at cut_at */
    LARBOARDYUZU_JOINED_RESTARTED_WHOLE = 5, /* it is a complete exclusive, and cuts off the one that began at
                                              * cut_at */
    LARBOARDYUZU_JOINED_FULL = 6,            /* it begins an exclusive but no slot is free: it is ignored */
    LARBOARDYUZU_JOINED_TOO_LONG = 7         /* it makes its exclusive exceed the limit; the exclusive is
                                              * dropped */
};

/* The result of one packet. With LARBOARDYUZU_EXCLUSIVE_TOO_LONG answer, group and stream are set. */
typedef struct larboardyuzu_part {
    size_t written;  /* bytes of the exclusive that the packet ends */
    size_t need;     /* with LARBOARDYUZU_SMALL_BUFFER, a sufficient size; otherwise 0 */
    uint64_t cut_at; /* the offset of the first packet of the exclusive that this packet cuts off */
    uint8_t answer;  /* enum larboardyuzu_joined */
    uint8_t group;
    uint8_t stream; /* the stream id */
} larboardyuzu_part;

/* streams: how many exclusives may be open at once, 1 to 64. room: the most bytes of one, 13 to 1,048,576. */
uint32_t larboardyuzu_sysex8_open(larboardyuzu_sysex8 *sysex8, uint8_t streams, uint32_t room);

/* Processes one packet. A packet of another type changes nothing. A buffer of fewer than `room` bytes is
 * refused, whatever the packet is. */
uint32_t larboardyuzu_sysex8_packet(larboardyuzu_sysex8 *sysex8, const uint32_t *words, size_t count,
                                    uint64_t offset, uint8_t *bytes, size_t size, larboardyuzu_part *part);

/* Processes consecutive packets. `offset` is the first packet's offset; it grows by 4 per word. The
 * exclusives are written one after the other to `bytes`, and parts[i] is the result of packet i. */
uint32_t larboardyuzu_sysex8_packets(larboardyuzu_sysex8 *sysex8, const uint32_t *words, size_t count,
                                     uint64_t offset, uint8_t *bytes, size_t size, larboardyuzu_part *parts,
                                     size_t part_count, larboardyuzu_block *block);

/* Writes the offset of the packet that began the exclusive that a stream of a group has open.
 * LARBOARDYUZU_NOTHING: none is open. */
uint32_t larboardyuzu_sysex8_begun(const larboardyuzu_sysex8 *sysex8, uint8_t group, uint8_t stream,
                                   uint64_t *offset);

/* Resets the handle to its state just after _open, without allocating. */
uint32_t larboardyuzu_sysex8_reset(larboardyuzu_sysex8 *sysex8);

void larboardyuzu_sysex8_close(larboardyuzu_sysex8 *sysex8);

/* Cuts a payload into packets (needs no handle): writes packet number `index` (from 0) of an 8-bit exclusive
 * with this payload. A packet is four words. Each packet has thirteen bytes except the last.
 * LARBOARDYUZU_SMALL_BUFFER: size is under 4. LARBOARDYUZU_NOTHING: there is no packet of this index. */
uint32_t larboardyuzu_sysex8_cut(uint8_t group, uint8_t stream, const uint8_t *payload, size_t payload_size,
                                 size_t index, uint32_t *words, size_t size);

/* ---- USB-MIDI 1.0 events ---- */

typedef struct larboardyuzu_usb {
    void *memory;   /* private */
    size_t is_open; /* private */
} larboardyuzu_usb;

/* The size of a buffer for the events of one message. A smaller one is refused, whatever the byte is. */
#define LARBOARDYUZU_USB_SIZE(room) (((room) + 4) / 3 * 4)
size_t larboardyuzu_usb_size(uint32_t room);

/* cable: the cable of the events to write, 0 to 15. */
uint32_t larboardyuzu_usb_open(larboardyuzu_usb *usb, uint8_t cable, uint32_t room);

/* Processes one byte of a MIDI 1.0 stream. The events of the message that it completes are written, four
 * bytes each. */
uint32_t larboardyuzu_usb_byte(larboardyuzu_usb *usb, uint8_t byte, uint64_t offset, uint8_t *events,
                               size_t size, larboardyuzu_outcome *outcome);

/* Processes consecutive bytes. The events are written one after the other to `events`. A byte that completes
 * a message or has a line has an outcome. */
uint32_t larboardyuzu_usb_bytes(larboardyuzu_usb *usb, const uint8_t *bytes, size_t count, uint64_t offset,
                                uint8_t *events, size_t size, larboardyuzu_outcome *outcomes,
                                size_t outcome_count, larboardyuzu_block *block);

/* The same as larboardyuzu_up_end. */
uint32_t larboardyuzu_usb_end(const larboardyuzu_usb *usb, larboardyuzu_line *line);

/* Resets the handle to its state just after _open, without allocating. */
uint32_t larboardyuzu_usb_reset(larboardyuzu_usb *usb);

void larboardyuzu_usb_close(larboardyuzu_usb *usb);

/* The MIDI bytes of one event. */
typedef struct larboardyuzu_carried {
    uint8_t cable;    /* 0 to 15 */
    uint8_t length;   /* how many of the bytes, 1 to 3 */
    uint8_t bytes[3]; /* all three data bytes of the event, including unused ones */
} larboardyuzu_carried;

/* Writes the MIDI bytes of an event of four bytes. LARBOARDYUZU_BAD_SIZE: size isn't 4. LARBOARDYUZU_NOTHING:
 * its code is reserved. */
uint32_t larboardyuzu_usb_carried(const uint8_t *event, size_t size, larboardyuzu_carried *carried);

/* ---- Calls without a handle ---- */

/* Buffer sizes: for any name, and for any line of `show`. */
#define LARBOARDYUZU_MOST_NAME 32u
#define LARBOARDYUZU_MOST_LINE 256u

/* Writes the name that this header gives a number, without its prefix and without a terminating zero, such as
 * SMALL_BUFFER, NOTE_ATTRIBUTE or NOT_CI. In the program's listing it is in lower case with hyphens:
 * note-attribute. length: its bytes, 0 unless it was written. LARBOARDYUZU_NOTHING: no such number.
 * LARBOARDYUZU_SMALL_BUFFER: it doesn't fit; LARBOARDYUZU_MOST_NAME bytes are enough for any name. */
uint32_t larboardyuzu_status_name(uint32_t status, uint8_t *text, size_t size, size_t *length);
uint32_t larboardyuzu_kind_name(uint32_t kind, uint8_t *text, size_t size, size_t *length);
uint32_t larboardyuzu_heard_name(uint32_t heard, uint8_t *text, size_t size, size_t *length);

/* Returns the number of words (1 to 4) in a packet whose first word is `first`. */
uint32_t larboardyuzu_words_in_packet(uint32_t first);

/* Cuts bytes into the words of whole packets. flags: LARBOARDYUZU_LITTLE_ENDIAN; without it the bytes of a
 * word come highest first. block: bytes taken, and words written.
 *  - LARBOARDYUZU_SMALL_BUFFER, before a packet for which the rest of `words` is too small: need is how many
 *    words the packet has.
 *  - LARBOARDYUZU_BAD_SIZE, before a last packet whose bytes aren't all there, and always before one to three
 *    bytes: pass these bytes again with those that follow. (No bytes are LARBOARDYUZU_DONE.) */
uint32_t larboardyuzu_packets_in(const uint8_t *bytes, size_t count, uint32_t flags, uint32_t *words,
                                 size_t size, larboardyuzu_block *block);

/* Writes a packet, counted from 0, of an exclusive with these bytes between F0 and F7: two words.
 * LARBOARDYUZU_SMALL_BUFFER: size is under 2. LARBOARDYUZU_NOTHING: there is no packet of this index.
 * LARBOARDYUZU_HIGH_BIT: a byte of this packet is over 127 (index 0 checks the whole payload). After a
 * refusal the words are unchanged. */
uint32_t larboardyuzu_exclusive_packet(uint8_t group, const uint8_t *payload, size_t payload_size,
                                       size_t index, uint32_t *words, size_t size);

/* Writes the line of `show` for a packet, with its line feed. A buffer smaller than LARBOARDYUZU_MOST_LINE
 * bytes is refused. length: the bytes written. */
uint32_t larboardyuzu_packet_line(const uint32_t *words, size_t count, uint64_t offset, uint8_t *text,
                                  size_t size, size_t *length);

/* Scales a value of 7 bits to 16 or 32, or of 14 bits to 32 (M2-115-U, min-centre-max scaling). narrow, wide:
 * widths in bits. LARBOARDYUZU_BAD_BITS: other widths. LARBOARDYUZU_BAD_VALUE: the value has more bits. */
uint32_t larboardyuzu_scale_up(uint32_t value, uint8_t narrow, uint8_t wide, uint32_t *scaled);

/* Scales down to the upper 7 of 16 bits, or to the upper 7 or 14 of 32 (M2-115-U). The same statuses. */
uint32_t larboardyuzu_scale_down(uint32_t value, uint8_t wide, uint8_t narrow, uint32_t *scaled);

#ifdef __cplusplus
}
#endif

#endif
