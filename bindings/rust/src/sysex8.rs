//! 8-bit exclusives of many streams.

use crate::error::{answer, found, Result};
use crate::handle::{is_done, Held};
use crate::{sys, Block, Joined, Part};

/// Joins the 8-bit exclusives (SysEx8) of many streams (M2-104-UM, system exclusive 8-bit messages). A stream is a group and a
/// stream id. [`sysex8_packet`](crate::sysex8_packet) is the other way.
///
/// ```
/// use larboardyuzu::{sysex8_packet, Joined, Sysex8};
///
/// let payload: Vec<u8> = (0xA0..0xAE).collect(); // fourteen bytes: two packets
/// let mut sysex8 = Sysex8::open(16, 64)?;
/// let mut bytes = [0; 64];
/// for index in 0..2 {
///     let words = sysex8_packet(0, 1, &payload, index)?.unwrap();
///     let part = sysex8.packet(&words, 16 * index as u64, &mut bytes)?;
///     assert_eq!(part.answer(), if index == 0 { Joined::Held } else { Joined::Whole });
///     assert_eq!((part.stream, part.written), (1, if index == 0 { 0 } else { 14 }));
/// }
/// assert_eq!(bytes[..14], payload);
/// # Ok::<(), larboardyuzu::Error>(())
/// ```
#[derive(Debug)]
pub struct Sysex8 {
    held: Held,
}

impl Sysex8 {
    /// Opens a join. `streams`, 1 to 64, is how many exclusives may be open at once; `room`, 13 to 1,048,576, the most bytes
    /// of one.
    ///
    /// # Errors
    ///
    /// `BadRoom`, `BadStreams`, `NoMemory`, `WrongVersion`.
    ///
    /// ```
    /// use larboardyuzu::{Error, Sysex8};
    ///
    /// assert_eq!(Sysex8::open(1, 12).err(), Some(Error::BadRoom));
    /// assert_eq!(Sysex8::open(65, 64).err(), Some(Error::BadStreams));
    /// ```
    pub fn open(streams: u8, room: u32) -> Result<Sysex8> {
        // SAFETY: the pointer is that of a closed handle, which nothing else has.
        let open = |raw| unsafe { sys::larboardyuzu_sysex8_open(raw, streams, room) };
        Ok(Sysex8 { held: Held::open(sys::larboardyuzu_sysex8_close, open)? })
    }

    /// Takes one packet and writes the bytes of the exclusive that it ends to the front of `bytes`. Packets of other types
    /// change nothing.
    ///
    /// # Errors
    ///
    /// `SmallBuffer` if `bytes` has fewer than `room` places, whatever the packet is; `BadWordCount`; `ExclusiveTooLong`, which
    /// drops the exclusive.
    ///
    /// ```
    /// use larboardyuzu::{Joined, Sysex8};
    ///
    /// let mut sysex8 = Sysex8::open(1, 64)?;
    /// // An End of stream 1 (form 3, two bytes with the stream id), and nothing is open.
    /// let part = sysex8.packet(&[0x5032_01A1, 0, 0, 0], 0, &mut [0; 64])?;
    /// assert_eq!((part.answer(), part.stream), (Joined::Stray, 1));
    /// # Ok::<(), larboardyuzu::Error>(())
    /// ```
    pub fn packet(&mut self, words: &[u32], offset: u64, bytes: &mut [u8]) -> Result<Part> {
        let mut part = Part::default();
        // SAFETY: the pointers and sizes are those of slices and of a struct, which don't overlap.
        let status = unsafe {
            sys::larboardyuzu_sysex8_packet(
                self.held.raw(),
                words.as_ptr(),
                words.len(),
                offset,
                bytes.as_mut_ptr(),
                bytes.len(),
                &mut part,
            )
        };
        answer(status, part.need).map(|()| part)
    }

    /// Takes packets that follow each other. `offset` is that of the first; each word adds 4. There is a part for each packet
    /// taken that wasn't refused, and the bytes of the exclusives follow each other in `bytes`.
    ///
    /// ```
    /// use larboardyuzu::{Part, Sysex8};
    ///
    /// let mut sysex8 = Sysex8::open(1, 64)?;
    /// let (mut bytes, mut parts) = ([0; 128], [Part::default(); 8]);
    /// // A Start and an End of stream 1, with a byte of data each.
    /// let words = [0x5012_01A0, 0, 0, 0, 0x5032_01A1, 0, 0, 0];
    /// let block = sysex8.packets(&words, 0, &mut bytes, &mut parts);
    /// assert_eq!((block.end, block.taken, block.items), (Ok(()), 8, 2));
    /// assert_eq!(bytes[..block.written], [0xA0, 0xA1]);
    /// # Ok::<(), larboardyuzu::Error>(())
    /// ```
    pub fn packets(&mut self, words: &[u32], offset: u64, bytes: &mut [u8], parts: &mut [Part]) -> Block {
        let mut block = sys::Block::default();
        // SAFETY: as in `packet`.
        let status = unsafe {
            sys::larboardyuzu_sysex8_packets(
                self.held.raw(),
                words.as_ptr(),
                words.len(),
                offset,
                bytes.as_mut_ptr(),
                bytes.len(),
                parts.as_mut_ptr(),
                parts.len(),
                &mut block,
            )
        };
        Block::of(status, block)
    }

    /// The offset at which the exclusive began that a stream of a group has open, if it has one.
    ///
    /// # Errors
    ///
    /// `BadGroup` if the group isn't 0 to 15.
    ///
    /// ```
    /// use larboardyuzu::Sysex8;
    ///
    /// let mut sysex8 = Sysex8::open(1, 64)?;
    /// sysex8.packet(&[0x5012_01A0, 0, 0, 0], 32, &mut [0; 64])?;
    /// assert_eq!((sysex8.begun(0, 1)?, sysex8.begun(0, 2)?), (Some(32), None));
    /// # Ok::<(), larboardyuzu::Error>(())
    /// ```
    pub fn begun(&self, group: u8, stream: u8) -> Result<Option<u64>> {
        let mut offset = 0;
        // SAFETY: no other call has the handle, and nothing else has the number.
        let status = unsafe { sys::larboardyuzu_sysex8_begun(self.held.read(), group, stream, &mut offset) };
        found(status, offset)
    }

    /// Makes it as it was just after it was opened. It requests no memory.
    ///
    /// ```
    /// use larboardyuzu::Sysex8;
    ///
    /// let mut sysex8 = Sysex8::open(1, 64)?;
    /// sysex8.packet(&[0x5012_01A0, 0, 0, 0], 32, &mut [0; 64])?;
    /// sysex8.reset();
    /// assert_eq!(sysex8.begun(0, 1)?, None);
    /// # Ok::<(), larboardyuzu::Error>(())
    /// ```
    pub fn reset(&mut self) {
        // SAFETY: nothing else has the handle.
        is_done(unsafe { sys::larboardyuzu_sysex8_reset(self.held.raw()) });
    }
}

impl Part {
    /// What the packet is to the exclusive of its stream.
    #[must_use]
    pub fn answer(&self) -> Joined {
        Joined::of(self.answer)
    }

    /// The offset at which the exclusive began that the packet cut off, if it did.
    #[must_use]
    pub fn cut_at(&self) -> Option<u64> {
        matches!(self.answer(), Joined::Restarted | Joined::RestartedWhole).then_some(self.cut_at)
    }
}
