//! Calls without a handle.

use crate::error::{answer, found, Result};
use crate::{sys, Block, Carried, Flags};
use core::fmt;
use core::iter;
use core::ops::Deref;
use core::str::from_utf8;

/// The version of the library that is linked: the major number times 65,536, the minor one times 256, and the patch.
///
/// ```
/// assert_eq!(larboardyuzu::version() >> 8, 0x0003);
/// ```
#[must_use]
pub fn version() -> u32 {
    // SAFETY: the call takes nothing.
    unsafe { sys::larboardyuzu_version() }
}

/// How many words the packet has that begins with this one: 1 to 4 (M2-104-UM, message types).
///
/// ```
/// use larboardyuzu::words_in_packet;
///
/// assert_eq!([0x1000_0000, 0x4090_3C00, 0xB000_0000, 0xF000_0000].map(words_in_packet), [1, 2, 3, 4]);
/// ```
#[must_use]
pub fn words_in_packet(first: u32) -> usize {
    // SAFETY: the call takes a number.
    unsafe { sys::larboardyuzu_words_in_packet(first) as usize }
}

macro_rules! sizes {
    ($($(#[$doc:meta])* $name:ident = $call:ident;)*) => {
        $($(#[$doc])*
        #[must_use]
        pub fn $name(room: u32) -> usize {
            // SAFETY: the call takes a number.
            unsafe { sys::$call(room) }
        })*
    };
}

sizes! {
    /// The least size of a buffer for the bytes of one packet, for [`Down`](crate::Down).
    ///
    /// ```
    /// assert_eq!(larboardyuzu::down_size(1024), 1026); // an exclusive with F0 and F7
    /// ```
    down_size = larboardyuzu_down_size;
    /// The least size, in words, of a buffer for what one byte completes, for [`Up`](crate::Up).
    ///
    /// ```
    /// assert_eq!(larboardyuzu::up_size(1024), 342); // 171 packets of six bytes and two words
    /// ```
    up_size = larboardyuzu_up_size;
    /// The least size of a buffer for one message, for [`Parser`](crate::Parser).
    ///
    /// ```
    /// assert_eq!(larboardyuzu::parser_size(1024), 1026); // an exclusive with F0 and F7
    /// ```
    parser_size = larboardyuzu_parser_size;
    /// The least size of a buffer for the events of one message, for [`Usb`](crate::Usb).
    ///
    /// ```
    /// assert_eq!(larboardyuzu::usb_size(1024), 1368); // 342 events of three bytes, for 1,026
    /// ```
    usb_size = larboardyuzu_usb_size;
}

/// Cuts bytes into the words of whole packets, and writes them to the front of `words`. The bytes of a word come highest first,
/// or with [`LITTLE_ENDIAN`](Flags::LITTLE_ENDIAN) lowest first. `taken` counts bytes, `written` words.
///
/// It ends as `BadSize` before a last packet whose bytes aren't all there, and always before fewer than four bytes; as
/// `SmallBuffer` before a packet for which the rest of `words` is too small, and `need` is the number of its words; and at
/// once as `BadFlags` if another flag is set.
///
/// ```
/// use larboardyuzu::{packets_in, Error, Flags};
///
/// let mut words = [0; 8];
/// let block = packets_in(&[0x20, 0x90, 0x3C, 0x64, 0x40, 0x90], &mut words, Flags::NONE);
/// assert_eq!((block.end, block.taken, block.written), (Err(Error::BadSize), 4, 1));
/// assert_eq!(words[0], 0x2090_3C64);
/// ```
pub fn packets_in(bytes: &[u8], words: &mut [u32], flags: Flags) -> Block {
    let mut block = sys::Block::default();
    // SAFETY: the pointers and sizes are those of slices and of a struct, which don't overlap.
    let status = unsafe {
        sys::larboardyuzu_packets_in(
            bytes.as_ptr(),
            bytes.len(),
            flags.bits(),
            words.as_mut_ptr(),
            words.len(),
            &mut block,
        )
    };
    Block::of(status, block)
}

/// Returns the packets of words that follow each other (M2-104-UM, message types). The last one may have fewer words than its
/// type has; [`Down::packet`](crate::Down::packet) then refuses it as `BadWordCount`.
///
/// ```
/// use larboardyuzu::packets_of;
///
/// let words = [0x2090_3C64, 0x4090_3C00, 0xC924_0000, 0x40B0_0700];
/// let lengths: Vec<_> = packets_of(&words).map(<[u32]>::len).collect();
/// assert_eq!(lengths, [1, 2, 1]);
/// ```
pub fn packets_of(words: &[u32]) -> impl Iterator<Item = &[u32]> + Clone {
    let mut rest = words;
    iter::from_fn(move || {
        let count = words_in_packet(*rest.first()?).min(rest.len());
        let (packet, after) = rest.split_at(count);
        rest = after;
        Some(packet)
    })
}

/// A packet, counted from 0, of a 7-bit exclusive with these bytes between F0 and F7 (M2-104-UM). `None`: it has no such packet.
///
/// # Errors
///
/// `BadGroup`; `HighBit` if a byte of the packet, or for packet 0 any byte of the payload, is 128 or more.
///
/// ```
/// use larboardyuzu::exclusive_packet;
///
/// let payload = [1, 2, 3, 4, 5, 6, 7];
/// assert_eq!(exclusive_packet(0, &payload, 0)?, Some([0x3016_0102, 0x0304_0506])); // a Start with six bytes
/// assert_eq!(exclusive_packet(0, &payload, 1)?, Some([0x3031_0700, 0])); // an End with one
/// assert_eq!(exclusive_packet(0, &payload, 2)?, None);
/// # Ok::<(), larboardyuzu::Error>(())
/// ```
pub fn exclusive_packet(group: u8, payload: &[u8], index: usize) -> Result<Option<[u32; 2]>> {
    let mut words = [0; 2];
    // SAFETY: the pointers and sizes are those of a slice and of an array, which don't overlap.
    let status = unsafe {
        sys::larboardyuzu_exclusive_packet(group, payload.as_ptr(), payload.len(), index, words.as_mut_ptr(), 2)
    };
    found(status, words)
}

/// The packets that `cut` returns for the indices from 0 on, up to the first `None` or error.
fn each_packet<const WORDS: usize>(
    cut: impl Fn(usize) -> Result<Option<[u32; WORDS]>> + Clone,
) -> impl Iterator<Item = Result<[u32; WORDS]>> + Clone {
    let mut next = Some(0);
    iter::from_fn(move || {
        let index = next?;
        let packet = cut(index).transpose();
        next = matches!(packet, Some(Ok(_))).then_some(index + 1);
        packet
    })
}

/// Returns the packets of a 7-bit exclusive with these bytes between F0 and F7 (M2-104-UM), in order. An error is its only item:
/// `BadGroup`, or `HighBit` if a byte of the payload is 128 or more.
///
/// ```
/// use larboardyuzu::{exclusive_packets, Error};
///
/// let packets: Result<Vec<_>, _> = exclusive_packets(2, &[1, 2, 3, 4, 5, 6, 7]).collect();
/// assert_eq!(packets?, [[0x3216_0102, 0x0304_0506], [0x3231_0700, 0]]); // a Start and an End
/// assert!(exclusive_packets(16, &[1]).eq([Err(Error::BadGroup)]));
/// # Ok::<(), Error>(())
/// ```
pub fn exclusive_packets(group: u8, payload: &[u8]) -> impl Iterator<Item = Result<[u32; 2]>> + Clone + '_ {
    each_packet(move |index| exclusive_packet(group, payload, index))
}

/// A packet, counted from 0, of an 8-bit exclusive with these bytes (M2-104-UM). Each packet has thirteen bytes except the last.
/// `None`: it has no such packet.
///
/// # Errors
///
/// `BadGroup`.
///
/// ```
/// use larboardyuzu::sysex8_packet;
///
/// // Complete (form 0), three bytes with the stream id 1.
/// assert_eq!(sysex8_packet(0, 1, &[0xA0, 0xA1], 0)?, Some([0x5003_01A0, 0xA100_0000, 0, 0]));
/// assert_eq!(sysex8_packet(0, 1, &[0xA0, 0xA1], 1)?, None);
/// # Ok::<(), larboardyuzu::Error>(())
/// ```
pub fn sysex8_packet(group: u8, stream: u8, payload: &[u8], index: usize) -> Result<Option<[u32; 4]>> {
    let mut words = [0; 4];
    // SAFETY: as in `exclusive_packet`.
    let status = unsafe {
        sys::larboardyuzu_sysex8_cut(group, stream, payload.as_ptr(), payload.len(), index, words.as_mut_ptr(), 4)
    };
    found(status, words)
}

/// Returns the packets of an 8-bit exclusive with these bytes (M2-104-UM), in order. An error, `BadGroup`, is its only item.
///
/// ```
/// use larboardyuzu::{sysex8_packets, Error};
///
/// let packets: Result<Vec<_>, _> = sysex8_packets(0, 1, &[0xA0; 14]).collect();
/// let first_words: Vec<_> = packets?.iter().map(|packet| packet[0]).collect();
/// assert_eq!(first_words, [0x501E_01A0, 0x5032_01A0]); // a Start with thirteen bytes and an End with one, each with the stream id
/// # Ok::<(), Error>(())
/// ```
pub fn sysex8_packets(group: u8, stream: u8, payload: &[u8]) -> impl Iterator<Item = Result<[u32; 4]>> + Clone + '_ {
    each_packet(move |index| sysex8_packet(group, stream, payload, index))
}

/// What a USB-MIDI 1.0 event of four bytes carries. `None`: its code is reserved.
///
/// ```
/// use larboardyuzu::usb_carried;
///
/// let carried = usb_carried([0x3F, 0xF8, 0, 0]).unwrap();
/// assert_eq!((carried.cable, carried.bytes()), (3, &[0xF8][..]));
/// assert_eq!(usb_carried([0x31, 0, 0, 0]), None);
/// ```
#[must_use]
pub fn usb_carried(event: [u8; 4]) -> Option<Carried> {
    let mut carried = Carried::default();
    // SAFETY: the pointer and size are those of an array, and nothing else has the struct.
    let status = unsafe { sys::larboardyuzu_usb_carried(event.as_ptr(), event.len(), &mut carried) };
    (status == sys::DONE).then_some(carried)
}

impl Carried {
    /// The bytes that it carries.
    #[must_use]
    pub fn bytes(&self) -> &[u8] {
        &self.bytes[..usize::from(self.length).min(3)]
    }
}

/// The line of `larboardyuzu show` for a packet.
#[derive(Clone, Copy)]
pub struct PacketLine {
    text: [u8; sys::MOST_LINE],
    length: usize,
}

impl Deref for PacketLine {
    type Target = str;

    fn deref(&self) -> &str {
        self.text.get(..self.length).and_then(|it| from_utf8(it).ok()).unwrap_or("")
        // it is ASCII
    }
}

impl fmt::Display for PacketLine {
    fn fmt(&self, out: &mut fmt::Formatter<'_>) -> fmt::Result {
        out.pad(self)
    }
}

impl fmt::Debug for PacketLine {
    fn fmt(&self, out: &mut fmt::Formatter<'_>) -> fmt::Result {
        fmt::Debug::fmt(&**self, out)
    }
}

/// The line of `larboardyuzu show` for a packet (docs/output.md), with its line feed.
///
/// # Errors
///
/// `BadWordCount`, `BadCount`, `HighBit`.
///
/// ```
/// use larboardyuzu::packet_line;
///
/// assert_eq!(&*packet_line(&[0x10F8_0000], 0)?, "0 10F80000 system group=0 status=F8\n");
/// # Ok::<(), larboardyuzu::Error>(())
/// ```
pub fn packet_line(words: &[u32], offset: u64) -> Result<PacketLine> {
    let mut line = PacketLine { text: [0; sys::MOST_LINE], length: 0 };
    // SAFETY: the pointers and sizes are those of a slice, an array and a number, which don't overlap.
    let status = unsafe {
        sys::larboardyuzu_packet_line(
            words.as_ptr(),
            words.len(),
            offset,
            line.text.as_mut_ptr(),
            line.text.len(),
            &mut line.length,
        )
    };
    answer(status, 0).map(|()| line)
}

/// Scales a value of 7 bits to 16 or 32, or of 14 bits to 32 (M2-115-U, min-centre-max scaling).
///
/// # Errors
///
/// `BadBits` for other widths; `BadValue` if the value has more bits than `narrow`.
///
/// ```
/// use larboardyuzu::{scale_up, Error};
///
/// assert_eq!([0, 64, 127].map(|value| scale_up(value, 7, 16)), [Ok(0), Ok(0x8000), Ok(0xFFFF)]);
/// assert_eq!(scale_up(128, 7, 16), Err(Error::BadValue));
/// ```
pub fn scale_up(value: u32, narrow: u8, wide: u8) -> Result<u32> {
    let mut scaled = 0;
    // SAFETY: nothing else has the number.
    answer(unsafe { sys::larboardyuzu_scale_up(value, narrow, wide, &mut scaled) }, 0).map(|()| scaled)
}

/// Takes the upper 7 of 16 bits, or the upper 7 or 14 of 32 (M2-115-U, downscaling).
///
/// # Errors
///
/// `BadBits` for other widths; `BadValue` if the value has more bits than `wide`.
///
/// ```
/// use larboardyuzu::{scale_down, Error};
///
/// assert_eq!([0, 0x8000, 0xFFFF].map(|value| scale_down(value, 16, 7)), [Ok(0), Ok(64), Ok(127)]);
/// assert_eq!(scale_down(0, 7, 16), Err(Error::BadBits));
/// ```
pub fn scale_down(value: u32, wide: u8, narrow: u8) -> Result<u32> {
    let mut scaled = 0;
    // SAFETY: nothing else has the number.
    answer(unsafe { sys::larboardyuzu_scale_down(value, wide, narrow, &mut scaled) }, 0).map(|()| scaled)
}
