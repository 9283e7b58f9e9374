//! MIDI 1.0 bytes to USB-MIDI 1.0 events.

use crate::error::{answer, Result};
use crate::handle::{is_done, Held};
use crate::{sys, Block, Line, Outcome};

/// Packs one MIDI 1.0 stream into USB-MIDI 1.0 events of four bytes (USB Device Class Definition for MIDI Devices 1.0).
/// [`usb_carried`](crate::usb_carried) is the other way.
///
/// ```
/// use larboardyuzu::{usb_size, Usb};
///
/// let mut usb = Usb::open(3, 64)?;
/// let mut events = vec![0; usb_size(64)];
/// let mut found = Vec::new();
/// for byte in [0xF0, 1, 2, 3, 4, 0xF7] {
///     let outcome = usb.byte(byte, 0, &mut events)?;
///     found.extend_from_slice(&events[..outcome.written]);
/// }
/// // Cable 3: an exclusive starts (code 4), and ends with three bytes (code 7).
/// assert_eq!(found, [0x34, 0xF0, 1, 2, 0x37, 3, 4, 0xF7]);
/// # Ok::<(), larboardyuzu::Error>(())
/// ```
#[derive(Debug)]
pub struct Usb {
    held: Held,
}

impl Usb {
    /// Opens a packer for `cable`, 0 to 15. `room`, 6 to 1,048,576, is the most bytes of an exclusive between F0 and F7.
    ///
    /// # Errors
    ///
    /// `BadRoom`, `BadGroup` (the cable), `NoMemory`, `WrongVersion`.
    ///
    /// ```
    /// use larboardyuzu::{Error, Usb};
    ///
    /// assert_eq!(Usb::open(16, 64).err(), Some(Error::BadGroup));
    /// ```
    pub fn open(cable: u8, room: u32) -> Result<Usb> {
        // SAFETY: the pointer is that of a closed handle, which nothing else has.
        let open = |raw| unsafe { sys::larboardyuzu_usb_open(raw, cable, room) };
        Ok(Usb { held: Held::open(sys::larboardyuzu_usb_close, open)? })
    }

    /// Takes one byte and writes the events of the message that it completes to the front of `events`.
    ///
    /// # Errors
    ///
    /// `SmallBuffer` if `events` has fewer places than [`usb_size`](crate::usb_size), whatever the byte is; `ExclusiveTooLong` at the
    /// byte that is one too many.
    ///
    /// ```
    /// use larboardyuzu::Usb;
    ///
    /// let mut usb = Usb::open(0, 64)?;
    /// let mut events = [0; 88];
    /// let outcome = usb.byte(0xF8, 0, &mut events)?;
    /// assert_eq!(events[..outcome.written], [0x0F, 0xF8, 0, 0]);
    /// # Ok::<(), larboardyuzu::Error>(())
    /// ```
    pub fn byte(&mut self, byte: u8, offset: u64, events: &mut [u8]) -> Result<Outcome> {
        let mut outcome = Outcome::default();
        // SAFETY: the pointers and the size are those of a slice and of a struct, which don't overlap.
        let status = unsafe {
            sys::larboardyuzu_usb_byte(self.held.raw(), byte, offset, events.as_mut_ptr(), events.len(), &mut outcome)
        };
        answer(status, outcome.need).map(|()| outcome)
    }

    /// Takes bytes that follow each other. `offset` is that of the first; each byte adds 1. There is an outcome for each byte that
    /// completes a message or has a line, and the events follow each other in `events`.
    ///
    /// ```
    /// use larboardyuzu::{Outcome, Usb};
    ///
    /// let mut usb = Usb::open(1, 64)?;
    /// let (mut events, mut outcomes) = ([0; 128], [Outcome::default(); 8]);
    /// let block = usb.bytes(&[0x90, 0x3C, 0x64, 0xC0, 5], 0, &mut events, &mut outcomes);
    /// assert_eq!((block.end, block.taken, block.items), (Ok(()), 5, 2));
    /// assert_eq!(events[..block.written], [0x19, 0x90, 0x3C, 0x64, 0x1C, 0xC0, 5, 0]);
    /// # Ok::<(), larboardyuzu::Error>(())
    /// ```
    pub fn bytes(&mut self, bytes: &[u8], offset: u64, events: &mut [u8], outcomes: &mut [Outcome]) -> Block {
        let mut block = sys::Block::default();
        // SAFETY: as in `byte`.
        let status = unsafe {
            sys::larboardyuzu_usb_bytes(
                self.held.raw(),
                bytes.as_ptr(),
                bytes.len(),
                offset,
                events.as_mut_ptr(),
                events.len(),
                outcomes.as_mut_ptr(),
                outcomes.len(),
                &mut block,
            )
        };
        Block::of(status, block)
    }

    /// The line of what is open at the end of the stream, if anything is.
    ///
    /// ```
    /// use larboardyuzu::{Kind, Line, Usb};
    ///
    /// let mut usb = Usb::open(0, 64)?;
    /// usb.byte(0xF0, 2, &mut [0; 88])?;
    /// assert_eq!(usb.end(), Some(Line { offset: 2, kind: Kind::OpenExclusive }));
    /// # Ok::<(), larboardyuzu::Error>(())
    /// ```
    #[must_use]
    pub fn end(&self) -> Option<Line> {
        let mut line = sys::Line::default();
        // SAFETY: no other call has the handle, and nothing else has the struct.
        let status = unsafe { sys::larboardyuzu_usb_end(self.held.read(), &mut line) };
        (status == sys::DONE).then(|| line.line()).flatten()
    }

    /// Makes it as it was just after it was opened. It requests no memory.
    ///
    /// ```
    /// use larboardyuzu::Usb;
    ///
    /// let mut usb = Usb::open(0, 64)?;
    /// usb.byte(0xF0, 2, &mut [0; 88])?;
    /// usb.reset();
    /// assert_eq!(usb.end(), None);
    /// # Ok::<(), larboardyuzu::Error>(())
    /// ```
    pub fn reset(&mut self) {
        // SAFETY: nothing else has the handle.
        is_done(unsafe { sys::larboardyuzu_usb_reset(self.held.raw()) });
    }
}
