//! The C interface: the numbers, structs and calls of `include/larboardyuzu.h`, and the heap of `larboardyuzu_heap.h`.
//!
//! `bindings/generate.py` makes this file from the headers, and `c/interface.py` compares the header with the sources of
//! the library. Each constant has the name of the header without `LARBOARDYUZU_`, each `#[repr(C)]` struct the fields of
//! its counterpart.

use core::ffi::c_void;
use core::ptr::null_mut;

pub const VERSION: u32 = 0x000300;

// enum larboardyuzu_status
pub const DONE: u32 = 0;
pub const NO_MEMORY: u32 = 1;
pub const HANDLE_CLOSED: u32 = 2;
pub const ALREADY_OPEN: u32 = 3;
pub const BAD_ROOM: u32 = 4;
pub const BAD_WORD_COUNT: u32 = 5;
pub const SMALL_BUFFER: u32 = 6;
pub const BAD_COUNT: u32 = 7;
pub const HIGH_BIT: u32 = 8;
pub const DATA_INCREMENT: u32 = 9;
pub const DATA_DECREMENT: u32 = 10;
pub const EXCLUSIVE_TOO_LONG: u32 = 11;
pub const BAD_GROUP: u32 = 12;
pub const NOTHING: u32 = 13;
pub const OTHER_KIND: u32 = 14;
pub const BAD_STREAMS: u32 = 15;
pub const SETUP_SYNTAX: u32 = 16;
pub const SETUP_RULE: u32 = 17;
pub const BAD_BITS: u32 = 18;
pub const BAD_VALUE: u32 = 19;
pub const STATE_FULL: u32 = 20;
pub const BAD_FLAGS: u32 = 21;
pub const BAD_SIZE: u32 = 22;
pub const BAD_CHANNEL: u32 = 23;

// enum larboardyuzu_flag
pub const COMPACT: u32 = 1;
pub const PAIRED: u32 = 2;
pub const OF_BYTES: u32 = 4;
pub const LITTLE_ENDIAN: u32 = 8;

// enum larboardyuzu_kind
pub const NO_LINE: u8 = 0;
pub const UTILITY: u8 = 1;
pub const STREAM: u8 = 2;
pub const RESERVED: u8 = 3;
pub const DATA8: u8 = 4;
pub const FLEX: u8 = 5;
pub const NOTE_ATTRIBUTE: u8 = 6;
pub const NOTE_CONTROLLER: u8 = 7;
pub const NOTE_BEND: u8 = 8;
pub const NOTE_MANAGEMENT: u8 = 9;
pub const NULL_PARAMETER: u8 = 10;
pub const RELATIVE_PARAMETER: u8 = 11;
pub const MISPLACED_CONTROLLER: u8 = 12;
pub const FINE_CONTROLLER: u8 = 13;
pub const STRAY_EXCLUSIVE: u8 = 14;
pub const CUT_EXCLUSIVE: u8 = 15;
pub const OPEN_EXCLUSIVE: u8 = 16;
pub const STRAY: u8 = 17;
pub const UNDEFINED: u8 = 18;
pub const CUT_MESSAGE: u8 = 19;
pub const OPEN_MESSAGE: u8 = 20;
pub const IGNORED_DATA_ENTRY: u8 = 21;

// enum larboardyuzu_heard
pub const HEARD_NOTHING: u8 = 0;
pub const HEARD_NOT_CI: u8 = 1;
pub const HEARD_SHORT: u8 = 2;
pub const HEARD_BAD_ADDRESS: u8 = 3;
pub const HEARD_RESERVED_MUID: u8 = 4;
pub const HEARD_NO_BLOCK: u8 = 5;
pub const HEARD_SILENT: u8 = 6;
pub const HEARD_COLLISION: u8 = 7;
pub const HEARD_OLD_VERSION: u8 = 8;
pub const HEARD_NOT_OURS: u8 = 9;
pub const HEARD_MOVED: u8 = 10;
pub const HEARD_REPORT: u8 = 11;
pub const HEARD_BROADCAST: u8 = 12;
pub const HEARD_ANSWERED: u8 = 13;
pub const HEARD_PASSED: u8 = 14;
pub const HEARD_NAK: u8 = 15;
pub const HEARD_NO_ANSWER: u8 = 16;
pub const HEARD_BAD_FORMAT: u8 = 17;

// enum larboardyuzu_fact_kind
pub const FACT_ON: u8 = 0;
pub const FACT_OFF: u8 = 1;
pub const FACT_MODE: u8 = 2;
pub const FACT_POLY: u8 = 3;
pub const FACT_CONTROL: u8 = 4;
pub const FACT_PRESSURE: u8 = 5;
pub const FACT_BEND: u8 = 6;
pub const FACT_PROGRAM: u8 = 7;
pub const FACT_REGISTERED: u8 = 8;
pub const FACT_ASSIGNABLE: u8 = 9;
pub const FACT_SYSTEM: u8 = 10;
pub const FACT_REAL_TIME: u8 = 11;

// enum larboardyuzu_joined
pub const JOINED_OTHER: u8 = 0;
pub const JOINED_HELD: u8 = 1;
pub const JOINED_WHOLE: u8 = 2;
pub const JOINED_STRAY: u8 = 3;
pub const JOINED_RESTARTED: u8 = 4;
pub const JOINED_RESTARTED_WHOLE: u8 = 5;
pub const JOINED_FULL: u8 = 6;
pub const JOINED_TOO_LONG: u8 = 7;

// The limits
pub const LEAST_ROOM: u32 = 6;
pub const MOST_ROOM: u32 = 1_048_576;
pub const MOST_REPLY_WORDS: usize = 1024;
pub const MOST_SETUP_BYTES: usize = 65_536;
pub const MOST_NOTES: u32 = 1_048_576;
pub const MOST_PARAMS: u32 = 16_384;
pub const NO_CHANNEL: u8 = 255;
pub const MOST_NAME: usize = 32;
pub const MOST_LINE: usize = 256;

/// A handle of any kind: `larboardyuzu_down` to `larboardyuzu_usb` are this struct in C.
#[repr(C)]
#[derive(Debug)]
pub struct Handle {
    pub memory: *mut c_void,
    /// 1 if it is open, and 0 if it is closed.
    pub is_open: usize,
}

impl Handle {
    /// `LARBOARDYUZU_CLOSED`.
    pub const CLOSED: Handle = Handle { memory: null_mut(), is_open: 0 };
}

/// A line of the listing as C has it.
#[repr(C)]
#[derive(Clone, Copy, Debug, Default, PartialEq, Eq)]
pub struct Line {
    /// The offset of what it lists.
    pub offset: u64,
    /// `enum larboardyuzu_kind`; 0 if there is none.
    pub kind: u8,
}

/// What a byte of a MIDI 1.0 stream led to.
#[repr(C)]
#[derive(Clone, Copy, Debug, Default, PartialEq, Eq)]
pub struct Outcome {
    /// The number of words (up) or bytes (parser, USB) written; 0 unless the byte completes something.
    pub written: usize,
    /// With `SMALL_BUFFER` a size that does, else 0.
    pub need: usize,
    /// The offset of the byte, as the caller numbered it.
    pub offset: u64,
    /// If the byte cut something off, the line of that; otherwise the line of the byte.
    pub first: Line,
    /// If the byte cut something off, the line of the byte.
    pub second: Line,
}

/// How far a block call came, as C has it.
#[repr(C)]
#[derive(Clone, Copy, Debug, Default, PartialEq, Eq)]
pub struct Block {
    /// Words or bytes taken from the front of the input, including a refused one.
    pub taken: usize,
    /// Places written to the first buffer.
    pub written: usize,
    /// Items written to the second buffer.
    pub items: usize,
    /// The size of the refused packet or byte, which is the last part of `taken`; otherwise 0.
    pub refused: usize,
    /// With SMALL_BUFFER, if the first buffer is too small: the size that an empty buffer must have; otherwise 0.
    pub need: usize,
    /// With SMALL_BUFFER, if the second buffer is full: 1; otherwise 0.
    pub need_items: usize,
}

/// What a packet became on the way down.
#[repr(C)]
#[derive(Clone, Copy, Debug, Default, PartialEq, Eq)]
pub struct Piece {
    /// The number of MIDI 1.0 bytes written; 0 if the packet isn't carried, or its exclusive goes on.
    pub written: usize,
    /// With `SMALL_BUFFER` a size that does, else 0.
    pub need: usize,
    /// The offset of its line of the listing: of the packet, or of the first one of an exclusive that is cut off;
    /// else 0.
    pub offset: u64,
    /// The group whose MIDI 1.0 stream the bytes belong to, 0 to 15.
    pub lane: u8,
    /// `enum larboardyuzu_kind` of its line; 0 if it has none.
    pub kind: u8,
    /// The group of its line; 255 if it has none.
    pub group: u8,
}

/// What an endpoint did with a packet.
#[repr(C)]
#[derive(Clone, Copy, Debug, Default, PartialEq, Eq)]
pub struct Replies {
    /// The number of words of replies written: whole packets, in the order of sending.
    pub written: usize,
    /// With `SMALL_BUFFER` a size that does, else 0.
    pub need: usize,
    /// The offset of its line of the listing: of the packet if it is stray, or of the first one of an exclusive that it
    /// cuts off; else 0.
    pub offset: u64,
    /// `enum larboardyuzu_heard`.
    pub heard: u8,
    /// The group of a packet of an exclusive, and so of its line; 255 for other packets.
    pub group: u8,
    /// `enum larboardyuzu_kind` of its line; 0 if it has none.
    pub kind: u8,
}

/// A profile of a setup.
#[repr(C)]
#[derive(Clone, Copy, Debug, Default, PartialEq, Eq)]
pub struct Profile {
    /// Its function block, counted from 0.
    pub block: u8,
    /// Its group; 255 if it belongs to the whole function block.
    pub group: u8,
    /// Its channel; 255 if it belongs to the whole group or function block.
    pub channel: u8,
    /// The five bytes of its id.
    pub id: [u8; 5],
    /// Whether it is on now.
    pub is_on: bool,
}

/// One thing that the messages so far have set in a receiver.
#[repr(C)]
#[derive(Clone, Copy, Debug, Default, PartialEq, Eq)]
pub struct Fact {
    /// The number of messages, at most 2^64 - 1 (system messages only).
    pub count: u64,
    /// The value: 7 or 14 bits after bytes, 16 or 32 after packets; 0 if there is none.
    pub value: u32,
    /// `enum larboardyuzu_fact_kind`.
    pub kind: u8,
    /// The group, 0 to 15.
    pub group: u8,
    /// The channel, 0 to 15; of system messages 0.
    pub channel: u8,
    /// The note, the controller, the program, or the LSB of the parameter's number: 0 to 127.
    pub number: u8,
    /// The MSB of a parameter's number, or of the bank of a program: 0 to 127.
    pub bank: u8,
    /// The LSB of the bank of a program: 0 to 127.
    pub bank_lsb: u8,
    /// Whether a bank was selected for the program.
    pub has_bank: bool,
    /// Whether there is a value: always up to `FACT_BEND`, never of a program or a count; of a parameter if it was
    /// ever set.
    pub has_value: bool,
    /// Whether a relative change came after the value.
    pub is_loose: bool,
}

/// What a packet added to the 8-bit exclusive of its stream.
#[repr(C)]
#[derive(Clone, Copy, Debug, Default, PartialEq, Eq)]
pub struct Part {
    /// The number of bytes written: all those of the exclusive that the packet ends, otherwise 0.
    pub written: usize,
    /// With `SMALL_BUFFER` a size that does, else 0.
    pub need: usize,
    /// The offset at which the exclusive began that the packet cut off; else 0.
    pub cut_at: u64,
    /// `enum larboardyuzu_joined`.
    pub answer: u8,
    /// The group of the stream.
    pub group: u8,
    /// The stream id.
    pub stream: u8,
}

/// What one USB-MIDI 1.0 event carries. Two values differ also if they differ only in bytes that aren't carried.
#[repr(C)]
#[derive(Clone, Copy, Debug, Default, PartialEq, Eq)]
pub struct Carried {
    /// The cable, 0 to 15.
    pub cable: u8,
    /// How many of `bytes` it carries, 1 to 3.
    pub length: u8,
    /// The last three bytes of the event, also those after `length`, which it doesn't carry.
    pub bytes: [u8; 3],
}

extern "C" {
    pub fn larboardyuzu_version() -> u32;

    pub fn larboardyuzu_down_size(room: u32) -> usize;
    pub fn larboardyuzu_down_open(down: *mut Handle, room: u32, flags: u32) -> u32;
    pub fn larboardyuzu_down_packet(
        down: *mut Handle,
        words: *const u32,
        count: usize,
        offset: u64,
        bytes: *mut u8,
        size: usize,
        piece: *mut Piece,
    ) -> u32;
    pub fn larboardyuzu_down_packets(
        down: *mut Handle,
        words: *const u32,
        count: usize,
        offset: u64,
        bytes: *mut u8,
        size: usize,
        pieces: *mut Piece,
        piece_count: usize,
        block: *mut Block,
    ) -> u32;
    pub fn larboardyuzu_down_begun(down: *const Handle, group: u8, offset: *mut u64) -> u32;
    pub fn larboardyuzu_down_reset(down: *mut Handle) -> u32;
    pub fn larboardyuzu_down_close(down: *mut Handle);

    pub fn larboardyuzu_up_size(room: u32) -> usize;
    pub fn larboardyuzu_up_open(up: *mut Handle, group: u8, room: u32, flags: u32) -> u32;
    pub fn larboardyuzu_up_byte(
        up: *mut Handle,
        byte: u8,
        offset: u64,
        words: *mut u32,
        size: usize,
        outcome: *mut Outcome,
    ) -> u32;
    pub fn larboardyuzu_up_bytes(
        up: *mut Handle,
        bytes: *const u8,
        count: usize,
        offset: u64,
        words: *mut u32,
        size: usize,
        outcomes: *mut Outcome,
        outcome_count: usize,
        block: *mut Block,
    ) -> u32;
    pub fn larboardyuzu_up_end(up: *const Handle, line: *mut Line) -> u32;
    pub fn larboardyuzu_up_reset(up: *mut Handle) -> u32;
    pub fn larboardyuzu_up_close(up: *mut Handle);

    pub fn larboardyuzu_parser_size(room: u32) -> usize;
    pub fn larboardyuzu_parser_open(parser: *mut Handle, room: u32) -> u32;
    pub fn larboardyuzu_parser_byte(
        parser: *mut Handle,
        byte: u8,
        offset: u64,
        message: *mut u8,
        size: usize,
        outcome: *mut Outcome,
    ) -> u32;
    pub fn larboardyuzu_parser_bytes(
        parser: *mut Handle,
        bytes: *const u8,
        count: usize,
        offset: u64,
        messages: *mut u8,
        size: usize,
        outcomes: *mut Outcome,
        outcome_count: usize,
        block: *mut Block,
    ) -> u32;
    pub fn larboardyuzu_parser_end(parser: *const Handle, line: *mut Line) -> u32;
    pub fn larboardyuzu_parser_reset(parser: *mut Handle) -> u32;
    pub fn larboardyuzu_parser_close(parser: *mut Handle);

    pub fn larboardyuzu_endpoint_open(
        endpoint: *mut Handle,
        text: *const u8,
        size: usize,
        room: u32,
        rule: *mut u8,
    ) -> u32;
    pub fn larboardyuzu_endpoint_packet(
        endpoint: *mut Handle,
        words: *const u32,
        count: usize,
        offset: u64,
        reply: *mut u32,
        size: usize,
        replies: *mut Replies,
    ) -> u32;
    pub fn larboardyuzu_endpoint_packets(
        endpoint: *mut Handle,
        words: *const u32,
        count: usize,
        offset: u64,
        reply: *mut u32,
        size: usize,
        replies: *mut Replies,
        reply_count: usize,
        block: *mut Block,
    ) -> u32;
    pub fn larboardyuzu_endpoint_protocol(endpoint: *const Handle, protocol: *mut u8) -> u32;
    pub fn larboardyuzu_endpoint_muid(endpoint: *const Handle, block: u8, muid: *mut u32) -> u32;
    pub fn larboardyuzu_endpoint_profile(endpoint: *const Handle, index: usize, profile: *mut Profile) -> u32;
    pub fn larboardyuzu_endpoint_begun(endpoint: *const Handle, group: u8, offset: *mut u64) -> u32;
    pub fn larboardyuzu_endpoint_reset(endpoint: *mut Handle) -> u32;
    pub fn larboardyuzu_endpoint_close(endpoint: *mut Handle);

    pub fn larboardyuzu_state_open(state: *mut Handle, room: u32, notes: u32, params: u32, flags: u32) -> u32;
    pub fn larboardyuzu_state_packet(state: *mut Handle, words: *const u32, count: usize) -> u32;
    pub fn larboardyuzu_state_packets(state: *mut Handle, words: *const u32, count: usize, block: *mut Block) -> u32;
    pub fn larboardyuzu_state_byte(state: *mut Handle, byte: u8) -> u32;
    pub fn larboardyuzu_state_bytes(state: *mut Handle, bytes: *const u8, count: usize, block: *mut Block) -> u32;
    pub fn larboardyuzu_state_facts(
        state: *const Handle,
        group: u8,
        channel: u8,
        facts: *mut Fact,
        size: usize,
        written: *mut usize,
        need: *mut usize,
    ) -> u32;
    pub fn larboardyuzu_state_reset(state: *mut Handle) -> u32;
    pub fn larboardyuzu_state_close(state: *mut Handle);

    pub fn larboardyuzu_sysex8_open(sysex8: *mut Handle, streams: u8, room: u32) -> u32;
    pub fn larboardyuzu_sysex8_packet(
        sysex8: *mut Handle,
        words: *const u32,
        count: usize,
        offset: u64,
        bytes: *mut u8,
        size: usize,
        part: *mut Part,
    ) -> u32;
    pub fn larboardyuzu_sysex8_packets(
        sysex8: *mut Handle,
        words: *const u32,
        count: usize,
        offset: u64,
        bytes: *mut u8,
        size: usize,
        parts: *mut Part,
        part_count: usize,
        block: *mut Block,
    ) -> u32;
    pub fn larboardyuzu_sysex8_begun(sysex8: *const Handle, group: u8, stream: u8, offset: *mut u64) -> u32;
    pub fn larboardyuzu_sysex8_reset(sysex8: *mut Handle) -> u32;
    pub fn larboardyuzu_sysex8_close(sysex8: *mut Handle);
    pub fn larboardyuzu_sysex8_cut(
        group: u8,
        stream: u8,
        payload: *const u8,
        payload_size: usize,
        index: usize,
        words: *mut u32,
        size: usize,
    ) -> u32;

    pub fn larboardyuzu_usb_size(room: u32) -> usize;
    pub fn larboardyuzu_usb_open(usb: *mut Handle, cable: u8, room: u32) -> u32;
    pub fn larboardyuzu_usb_byte(
        usb: *mut Handle,
        byte: u8,
        offset: u64,
        events: *mut u8,
        size: usize,
        outcome: *mut Outcome,
    ) -> u32;
    pub fn larboardyuzu_usb_bytes(
        usb: *mut Handle,
        bytes: *const u8,
        count: usize,
        offset: u64,
        events: *mut u8,
        size: usize,
        outcomes: *mut Outcome,
        outcome_count: usize,
        block: *mut Block,
    ) -> u32;
    pub fn larboardyuzu_usb_end(usb: *const Handle, line: *mut Line) -> u32;
    pub fn larboardyuzu_usb_reset(usb: *mut Handle) -> u32;
    pub fn larboardyuzu_usb_close(usb: *mut Handle);
    pub fn larboardyuzu_usb_carried(event: *const u8, size: usize, carried: *mut Carried) -> u32;

    pub fn larboardyuzu_status_name(status: u32, text: *mut u8, size: usize, length: *mut usize) -> u32;
    pub fn larboardyuzu_kind_name(kind: u32, text: *mut u8, size: usize, length: *mut usize) -> u32;
    pub fn larboardyuzu_heard_name(heard: u32, text: *mut u8, size: usize, length: *mut usize) -> u32;
    pub fn larboardyuzu_words_in_packet(first: u32) -> u32;
    pub fn larboardyuzu_packets_in(
        bytes: *const u8,
        count: usize,
        flags: u32,
        words: *mut u32,
        size: usize,
        block: *mut Block,
    ) -> u32;
    pub fn larboardyuzu_exclusive_packet(
        group: u8,
        payload: *const u8,
        payload_size: usize,
        index: usize,
        words: *mut u32,
        size: usize,
    ) -> u32;
    pub fn larboardyuzu_packet_line(
        words: *const u32,
        count: usize,
        offset: u64,
        text: *mut u8,
        size: usize,
        length: *mut usize,
    ) -> u32;
    pub fn larboardyuzu_scale_up(value: u32, narrow: u8, wide: u8, scaled: *mut u32) -> u32;
    pub fn larboardyuzu_scale_down(value: u32, wide: u8, narrow: u8, scaled: *mut u32) -> u32;
}

// larboardyuzu_heap.h. The library defines these three over `malloc`. A program that is linked with the archive may define
// all three itself, with `#[no_mangle]` (examples/rust/firmware); only calls that end in `_open` or `_close` call them.

/// The result of an allocation. `at` is never null, even if the allocation failed.
#[repr(C)]
#[derive(Clone, Copy, Debug)]
pub struct Given {
    pub is_given: bool,
    pub at: *mut c_void,
}

extern "C" {
    pub fn larboardyuzu_heap_alloc(size: usize, align: usize) -> Given;
    pub fn larboardyuzu_heap_realloc(at: *mut c_void, kept: usize, size: usize, align: usize) -> Given;
    pub fn larboardyuzu_heap_dealloc(at: *mut c_void);
}
