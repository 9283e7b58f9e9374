//! Packets to MIDI 1.0 bytes.

use crate::error::{answer, found, Result};
use crate::handle::{is_done, Held};
use crate::{sys, Block, Flags, Piece};

/// Translates packets to MIDI 1.0 bytes (M2-104-UM, default translation).
///
/// ```
/// use larboardyuzu::{down_size, Down, Flags};
///
/// let mut down = Down::open(64, Flags::NONE)?;
/// let mut bytes = vec![0; down_size(64)];
/// // A registered parameter, 0/1, in group 3: its number and two data entries.
/// let piece = down.packet(&[0x4320_0001, 0x8000_0000], 0, &mut bytes)?;
/// assert_eq!(piece.lane, 3);
/// assert_eq!(bytes[..piece.written], [0xB0, 0x65, 0, 0xB0, 0x64, 1, 0xB0, 0x06, 0x40, 0xB0, 0x26, 0]);
/// # Ok::<(), larboardyuzu::Error>(())
/// ```
///
/// Threads can't share it:
///
/// ```compile_fail
/// fn shared<T: Sync>() {}
/// shared::<larboardyuzu::Down>();
/// ```
#[derive(Debug)]
pub struct Down {
    held: Held,
}

impl Down {
    /// Opens a translator. `room`, 6 to 1,048,576, is the most bytes of an exclusive; each of the sixteen groups has that
    /// much memory. It has the flags [`COMPACT`](Flags::COMPACT) and [`PAIRED`](Flags::PAIRED).
    ///
    /// # Errors
    ///
    /// `BadRoom`, `BadFlags`, `NoMemory`, `WrongVersion`, the first that applies.
    ///
    /// ```
    /// use larboardyuzu::{Down, Error, Flags};
    ///
    /// assert!(Down::open(1024, Flags::COMPACT | Flags::PAIRED).is_ok());
    /// assert_eq!(Down::open(5, Flags::NONE).err(), Some(Error::BadRoom));
    /// ```
    pub fn open(room: u32, flags: Flags) -> Result<Down> {
        // SAFETY: the pointer is that of a closed handle, which nothing else has.
        let open = |raw| unsafe { sys::larboardyuzu_down_open(raw, room, flags.bits()) };
        Ok(Down { held: Held::open(sys::larboardyuzu_down_close, open)? })
    }

    /// Takes one packet and writes its MIDI 1.0 bytes to the front of `bytes`. The bytes of an exclusive all come with its
    /// last packet. `offset` is any number, such as the frame at which the packet is due; it comes back in lines.
    ///
    /// # Errors
    ///
    /// `SmallBuffer` if `bytes` has fewer places than [`down_size`](crate::down_size), whatever the packet is;
    /// `BadWordCount`, `BadCount`, `HighBit`, `DataIncrement`, `DataDecrement`, `ExclusiveTooLong`. The last one drops the
    /// exclusive; otherwise a refused packet changes nothing.
    ///
    /// ```
    /// use larboardyuzu::{Down, Error, Flags, Kind, Line};
    ///
    /// let mut down = Down::open(6, Flags::NONE)?;
    /// let mut bytes = [0; 12];
    /// // A note with an attribute, which is carried without it.
    /// let piece = down.packet(&[0x4090_3C01, 0xC924_0007], 40, &mut bytes)?;
    /// assert_eq!(bytes[..piece.written], [0x90, 0x3C, 0x64]);
    /// assert_eq!(piece.line(), Some(Line { offset: 40, kind: Kind::NoteAttribute }));
    /// assert_eq!(down.packet(&[0x20B0_6001], 48, &mut bytes), Err(Error::DataIncrement));
    /// assert_eq!(down.packet(&[0x20B0_0764], 48, &mut bytes[..11]), Err(Error::SmallBuffer(12)));
    /// # Ok::<(), Error>(())
    /// ```
    pub fn packet(&mut self, words: &[u32], offset: u64, bytes: &mut [u8]) -> Result<Piece> {
        let mut piece = Piece::default();
        // SAFETY: the pointers and sizes are those of slices and of a struct, which don't overlap.
        let status = unsafe {
            sys::larboardyuzu_down_packet(
                self.held.raw(),
                words.as_ptr(),
                words.len(),
                offset,
                bytes.as_mut_ptr(),
                bytes.len(),
                &mut piece,
            )
        };
        answer(status, piece.need).map(|()| piece)
    }

    /// Takes packets that follow each other. `offset` is that of the first; each word adds 4. There is a piece for each packet
    /// taken that wasn't refused, and their bytes follow each other in `bytes`. The crate's page has a loop that goes on after
    /// every refusal.
    ///
    /// ```
    /// use larboardyuzu::{parts, Down, Flags, Piece};
    ///
    /// let mut down = Down::open(64, Flags::COMPACT)?;
    /// let (mut bytes, mut pieces) = ([0; 256], [Piece::default(); 16]);
    /// let block = down.packets(&[0x2090_3C64, 0x2090_3E64], 0, &mut bytes, &mut pieces);
    /// assert_eq!((block.end, block.taken, block.written, block.items), (Ok(()), 2, 5, 2));
    /// let lengths: Vec<_> = parts(&pieces[..2], &bytes).map(|(_, part)| part.len()).collect();
    /// assert_eq!(lengths, [3, 2]); // the second note has running status
    /// # Ok::<(), larboardyuzu::Error>(())
    /// ```
    pub fn packets(&mut self, words: &[u32], offset: u64, bytes: &mut [u8], pieces: &mut [Piece]) -> Block {
        let mut block = sys::Block::default();
        // SAFETY: as in `packet`.
        let status = unsafe {
            sys::larboardyuzu_down_packets(
                self.held.raw(),
                words.as_ptr(),
                words.len(),
                offset,
                bytes.as_mut_ptr(),
                bytes.len(),
                pieces.as_mut_ptr(),
                pieces.len(),
                &mut block,
            )
        };
        Block::of(status, block)
    }

    /// The offset at which the exclusive began that a group has open, if it has one.
    ///
    /// # Errors
    ///
    /// `BadGroup` if the group isn't 0 to 15.
    ///
    /// ```
    /// use larboardyuzu::{Down, Flags};
    ///
    /// let mut down = Down::open(64, Flags::NONE)?;
    /// down.packet(&[0x3016_0102, 0x0304_0506], 40, &mut [0; 66])?;
    /// assert_eq!((down.begun(0)?, down.begun(1)?), (Some(40), None));
    /// # Ok::<(), larboardyuzu::Error>(())
    /// ```
    pub fn begun(&self, group: u8) -> Result<Option<u64>> {
        let mut offset = 0;
        // SAFETY: no other call has the handle, and nothing else has the number.
        let status = unsafe { sys::larboardyuzu_down_begun(self.held.read(), group, &mut offset) };
        found(status, offset)
    }

    /// Makes it as it was just after it was opened. It requests no memory. In compact style nothing is known of a receiver
    /// afterwards.
    ///
    /// ```
    /// use larboardyuzu::{Down, Flags};
    ///
    /// let mut down = Down::open(64, Flags::COMPACT)?;
    /// let mut bytes = [0; 66];
    /// down.packet(&[0x2090_3C64], 0, &mut bytes)?;
    /// down.reset();
    /// let piece = down.packet(&[0x2090_3E64], 4, &mut bytes)?;
    /// assert_eq!(bytes[..piece.written], [0x90, 0x3E, 0x64]); // with its status byte
    /// # Ok::<(), larboardyuzu::Error>(())
    /// ```
    pub fn reset(&mut self) {
        // SAFETY: nothing else has the handle.
        is_done(unsafe { sys::larboardyuzu_down_reset(self.held.raw()) });
    }
}
