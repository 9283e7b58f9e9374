//! MIDI 1.0 bytes to packets.

use crate::error::{answer, Result};
use crate::handle::{is_done, Held};
use crate::{sys, Block, Flags, Line, Outcome};

/// Translates one MIDI 1.0 stream to the packets of a group (M2-104-UM, translation from MIDI 1.0).
///
/// ```
/// use larboardyuzu::{up_size, Flags, Up};
///
/// let mut up = Up::open(3, 64, Flags::NONE)?;
/// let mut words = vec![0; up_size(64)];
/// let mut found = Vec::new();
/// for (offset, byte) in [0x90, 0x3C, 0x64].into_iter().enumerate() {
///     let outcome = up.byte(byte, offset as u64, &mut words)?;
///     found.extend_from_slice(&words[..outcome.written]);
/// }
/// assert_eq!(found, [0x4390_3C00, 0xC924_0000]); // velocity 64 is C924 in sixteen bits
/// # Ok::<(), larboardyuzu::Error>(())
/// ```
#[derive(Debug)]
pub struct Up {
    held: Held,
}

impl Up {
    /// Opens a translator to the packets of `group`, 0 to 15. `room`, 6 to 1,048,576, is the most bytes of an exclusive. It has the
    /// flag [`PAIRED`](Flags::PAIRED).
    ///
    /// # Errors
    ///
    /// `BadRoom`, `BadGroup`, `BadFlags`, `NoMemory`, `WrongVersion`.
    ///
    /// ```
    /// use larboardyuzu::{Error, Flags, Up};
    ///
    /// assert_eq!(Up::open(16, 64, Flags::NONE).err(), Some(Error::BadGroup));
    /// assert_eq!(Up::open(0, 64, Flags::COMPACT).err(), Some(Error::BadFlags));
    /// ```
    pub fn open(group: u8, room: u32, flags: Flags) -> Result<Up> {
        // SAFETY: the pointer is that of a closed handle, which nothing else has.
        let open = |raw| unsafe { sys::larboardyuzu_up_open(raw, group, room, flags.bits()) };
        Ok(Up { held: Held::open(sys::larboardyuzu_up_close, open)? })
    }

    /// Takes one byte and writes the packets that it completes to the front of `words`.
    ///
    /// # Errors
    ///
    /// `SmallBuffer` if `words` has fewer places than [`up_size`](crate::up_size), whatever the byte is; `DataIncrement` and
    /// `DataDecrement` at the byte that completes the control change; `ExclusiveTooLong` at the byte that is one too many.
    ///
    /// ```
    /// use larboardyuzu::{Flags, Kind, Line, Up};
    ///
    /// let mut up = Up::open(0, 64, Flags::NONE)?;
    /// let mut words = [0; 24];
    /// let outcome = up.byte(0x40, 7, &mut words)?; // a data byte without a status byte
    /// assert_eq!((outcome.written, outcome.first()), (0, Some(Line { offset: 7, kind: Kind::Stray })));
    /// # Ok::<(), larboardyuzu::Error>(())
    /// ```
    pub fn byte(&mut self, byte: u8, offset: u64, words: &mut [u32]) -> Result<Outcome> {
        let mut outcome = Outcome::default();
        // SAFETY: the pointers and the size are those of a slice and of a struct, which don't overlap.
        let status = unsafe {
            sys::larboardyuzu_up_byte(self.held.raw(), byte, offset, words.as_mut_ptr(), words.len(), &mut outcome)
        };
        answer(status, outcome.need).map(|()| outcome)
    }

    /// Takes bytes that follow each other. `offset` is that of the first; each byte adds 1. There is an outcome for each byte that
    /// completes a packet or has a line, and their words follow each other in `words`.
    ///
    /// ```
    /// use larboardyuzu::{parts, Flags, Outcome, Up};
    ///
    /// let mut up = Up::open(0, 64, Flags::NONE)?;
    /// let (mut words, mut outcomes) = ([0; 64], [Outcome::default(); 8]);
    /// let block = up.bytes(&[0x90, 0x3C, 0x64, 0xF8], 0, &mut words, &mut outcomes);
    /// assert_eq!((block.end, block.taken), (Ok(()), 4));
    /// let found: Vec<_> = parts(&outcomes[..block.items], &words).map(|(it, part)| (it.offset, part)).collect();
    /// assert_eq!(found, [(2, &[0x4090_3C00, 0xC924_0000][..]), (3, &[0x10F8_0000])]);
    /// # Ok::<(), larboardyuzu::Error>(())
    /// ```
    pub fn bytes(&mut self, bytes: &[u8], offset: u64, words: &mut [u32], outcomes: &mut [Outcome]) -> Block {
        let mut block = sys::Block::default();
        // SAFETY: as in `byte`.
        let status = unsafe {
            sys::larboardyuzu_up_bytes(
                self.held.raw(),
                bytes.as_ptr(),
                bytes.len(),
                offset,
                words.as_mut_ptr(),
                words.len(),
                outcomes.as_mut_ptr(),
                outcomes.len(),
                &mut block,
            )
        };
        Block::of(status, block)
    }

    /// The line of what is open at the end of the stream, if anything is.
    ///
    /// ```
    /// use larboardyuzu::{Flags, Kind, Line, Up};
    ///
    /// let mut up = Up::open(0, 64, Flags::NONE)?;
    /// up.byte(0xF0, 12, &mut [0; 24])?;
    /// assert_eq!(up.end(), Some(Line { offset: 12, kind: Kind::OpenExclusive }));
    /// # Ok::<(), larboardyuzu::Error>(())
    /// ```
    #[must_use]
    pub fn end(&self) -> Option<Line> {
        let mut line = sys::Line::default();
        // SAFETY: no other call has the handle, and nothing else has the struct.
        let status = unsafe { sys::larboardyuzu_up_end(self.held.read(), &mut line) };
        (status == sys::DONE).then(|| line.line()).flatten()
    }

    /// Makes it as it was just after it was opened. It requests no memory.
    ///
    /// ```
    /// use larboardyuzu::{Flags, Up};
    ///
    /// let mut up = Up::open(0, 64, Flags::NONE)?;
    /// up.byte(0x90, 0, &mut [0; 24])?;
    /// up.reset();
    /// assert_eq!(up.end(), None);
    /// # Ok::<(), larboardyuzu::Error>(())
    /// ```
    pub fn reset(&mut self) {
        // SAFETY: nothing else has the handle.
        is_done(unsafe { sys::larboardyuzu_up_reset(self.held.raw()) });
    }
}
