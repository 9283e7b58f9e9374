//! MIDI 2.0 packets (UMP), MIDI 1.0 bytes, MIDI-CI, 8-bit exclusives and USB-MIDI events, over the C library Larboardyuzu,
//! whose calls are proved.
//!
//! | Type | What it does |
//! |---|---|
//! | [`Down`] | translates packets to MIDI 1.0 bytes |
//! | [`Up`] | translates MIDI 1.0 bytes to packets |
//! | [`Parser`] | cuts MIDI 1.0 bytes into whole messages |
//! | [`Endpoint`] | answers a peer's stream messages and MIDI-CI messages |
//! | [`State`] | keeps what the messages so far have set in a receiver |
//! | [`Sysex8`] | joins the 8-bit exclusives of many streams |
//! | [`Usb`] | packs MIDI 1.0 bytes into USB-MIDI 1.0 events |
//!
//! The crate has no dependencies, doesn't need `std`, and allocates nothing: a value requests all its memory from the
//! library when it is opened, and returns it when it is dropped. Every call writes to the front of a slice that the caller
//! passes and leaves the rest unchanged. A value can go to another thread, but two threads can't share it.
//!
//! ```
//! use larboardyuzu::{Down, Flags};
//!
//! let mut down = Down::open(1024, Flags::NONE)?;
//! let mut bytes = [0; 1026];
//! let piece = down.packet(&[0x4090_3C00, 0xC924_0000], 0, &mut bytes)?;
//! assert_eq!((piece.lane, &bytes[..piece.written]), (0, &[0x90, 0x3C, 0x64][..]));
//! # Ok::<(), larboardyuzu::Error>(())
//! ```
//!
//! # Blocks
//!
//! A call over many packets or bytes, such as [`Down::packets`], returns a [`Block`]. This loop goes on after every refusal
//! and with a buffer of any size:
//!
//! ```
//! use larboardyuzu::{parts, Down, Flags, Piece};
//!
//! // A note, data increment (which has no translation), and another note.
//! let words = [0x2090_3C64, 0x20B0_6001, 0x2090_3E64];
//! let mut down = Down::open(64, Flags::NONE)?;
//! let (mut bytes, mut pieces) = ([0; 66], [Piece::default(); 8]);
//! let (mut sent, mut refused) = (Vec::new(), Vec::new());
//! let mut at = 0;
//! while at < words.len() {
//!     let block = down.packets(&words[at..], 4 * at as u64, &mut bytes, &mut pieces);
//!     for (_, part) in parts(&pieces[..block.items], &bytes) {
//!         sent.extend_from_slice(part);
//!     }
//!     at += block.taken;
//!     match block.end {
//!         Err(error) if block.refused > 0 => refused.push((error, at - block.refused)),
//!         Err(error) if block.taken == 0 => return Err(error), // a buffer too small for any packet, or half a packet
//!         _ => (),
//!     }
//! }
//! assert_eq!(sent, [0x90, 0x3C, 0x64, 0x90, 0x3E, 0x64]);
//! assert_eq!(refused, [(larboardyuzu::Error::DataIncrement, 1)]);
//! # Ok::<(), larboardyuzu::Error>(())
//! ```
//!
//! # Offsets
//!
//! An offset is the caller's own number for a packet or byte. It comes back in the lines of the listing, and means nothing
//! else to the library.

#![no_std]
#![deny(missing_docs, unsafe_op_in_unsafe_fn)]

mod block;
mod down;
mod endpoint;
mod error;
mod flags;
mod handle;
mod names;
mod parser;
mod pure;
mod state;
#[allow(missing_docs)]
pub mod sys;
mod sysex8;
mod up;
mod usb;

pub use block::{parts, Block, Written};
pub use down::Down;
pub use endpoint::Endpoint;
pub use error::{Error, Result};
pub use flags::Flags;
pub use names::{FactKind, Heard, Joined, Kind, Line};
pub use parser::Parser;
pub use pure::{
    down_size, exclusive_packet, exclusive_packets, packet_line, packets_in, packets_of, parser_size, scale_down,
    scale_up, sysex8_packet, sysex8_packets, up_size, usb_carried, usb_size, version, words_in_packet, PacketLine,
};
pub use state::State;
pub use sys::{Carried, Fact, Outcome, Part, Piece, Profile, Replies};
pub use sysex8::Sysex8;
pub use up::Up;
pub use usb::Usb;

/// The least `room` of all types except [`Sysex8`], for which it is 13.
pub const LEAST_ROOM: u32 = sys::LEAST_ROOM;
/// The greatest `room`.
pub const MOST_ROOM: u32 = sys::MOST_ROOM;
/// The most words of the replies to one packet.
pub const MOST_REPLY_WORDS: usize = sys::MOST_REPLY_WORDS;
/// The most bytes of the text of a setup.
pub const MOST_SETUP_BYTES: usize = sys::MOST_SETUP_BYTES;
/// The most notes and mode messages of a channel that a [`State`] keeps.
pub const MOST_NOTES: u32 = sys::MOST_NOTES;
/// The most parameters of a kind and channel that a [`State`] keeps.
pub const MOST_PARAMS: u32 = sys::MOST_PARAMS;
