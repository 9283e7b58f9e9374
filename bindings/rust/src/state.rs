//! The running state of a receiver.

use crate::error::{answer, Result};
use crate::handle::{is_done, Held};
use crate::{sys, Block, Fact, FactKind, Flags};

/// Keeps what the messages so far have set in a receiver: notes, controllers, programs, parameters and counts.
///
/// ```
/// use larboardyuzu::{Fact, FactKind, Flags, State};
///
/// let mut state = State::open(64, 16, 16, Flags::NONE)?;
/// state.packet(&[0x40B2_0700, 0x8000_0000])?; // controller 7 of channel 2
/// let mut facts = [Fact::default(); 8];
/// let count = state.facts(0, Some(2), &mut facts)?;
/// assert_eq!(count, 1);
/// assert_eq!((facts[0].kind(), facts[0].number, facts[0].value), (FactKind::Control, 7, 0x8000_0000));
/// # Ok::<(), larboardyuzu::Error>(())
/// ```
#[derive(Debug)]
pub struct State {
    held: Held,
}

impl State {
    /// Opens a state. It takes packets, or with [`OF_BYTES`](Flags::OF_BYTES) the bytes of one MIDI 1.0 stream, whose facts are
    /// of group 0. `room`, 6 to 1,048,576, is the most bytes of an exclusive. `notes` is the most notes on, notes off and mode
    /// messages of each channel. They are a history: a note off removes nothing, and once the list is full each further one is
    /// refused as `StateFull`, until [`reset`](State::reset). `params` is the most parameters of each kind and channel. Both
    /// may be 0.
    ///
    /// # Errors
    ///
    /// `BadRoom` (also if `notes` is above [`MOST_NOTES`](crate::MOST_NOTES) or `params` above
    /// [`MOST_PARAMS`](crate::MOST_PARAMS)), `BadFlags`, `NoMemory`, `WrongVersion`.
    ///
    /// ```
    /// use larboardyuzu::{Error, Flags, State, MOST_NOTES};
    ///
    /// assert_eq!(State::open(64, MOST_NOTES + 1, 0, Flags::NONE).err(), Some(Error::BadRoom));
    /// ```
    pub fn open(room: u32, notes: u32, params: u32, flags: Flags) -> Result<State> {
        // SAFETY: the pointer is that of a closed handle, which nothing else has.
        let open = |raw| unsafe { sys::larboardyuzu_state_open(raw, room, notes, params, flags.bits()) };
        Ok(State { held: Held::open(sys::larboardyuzu_state_close, open)? })
    }

    /// Takes one packet.
    ///
    /// # Errors
    ///
    /// `OtherKind` if it takes bytes; `BadWordCount`, `BadCount`, `HighBit`, `ExclusiveTooLong`, `StateFull`. After `StateFull`
    /// nothing has changed.
    ///
    /// ```
    /// use larboardyuzu::{Error, Flags, State};
    ///
    /// let mut state = State::open(64, 1, 0, Flags::NONE)?;
    /// state.packet(&[0x4090_3C00, 0xC924_0000])?;
    /// assert_eq!(state.packet(&[0x4090_3E00, 0xC924_0000]), Err(Error::StateFull));
    /// assert_eq!(state.byte(0x90), Err(Error::OtherKind));
    /// # Ok::<(), Error>(())
    /// ```
    pub fn packet(&mut self, words: &[u32]) -> Result<()> {
        // SAFETY: the pointer and the size are those of a slice.
        answer(unsafe { sys::larboardyuzu_state_packet(self.held.raw(), words.as_ptr(), words.len()) }, 0)
    }

    /// Takes packets that follow each other.
    ///
    /// ```
    /// use larboardyuzu::{Error, Flags, State};
    ///
    /// let mut state = State::open(64, 1, 0, Flags::NONE)?;
    /// let block = state.packets(&[0x2090_3C64, 0x2090_3E64, 0x20B0_0705]);
    /// assert_eq!((block.end, block.taken, block.refused), (Err(Error::StateFull), 2, 1));
    /// # Ok::<(), Error>(())
    /// ```
    pub fn packets(&mut self, words: &[u32]) -> Block {
        let mut block = sys::Block::default();
        // SAFETY: as in `packet`.
        let status =
            unsafe { sys::larboardyuzu_state_packets(self.held.raw(), words.as_ptr(), words.len(), &mut block) };
        Block::of(status, block)
    }

    /// Takes one byte of the stream.
    ///
    /// # Errors
    ///
    /// `OtherKind` if it takes packets; `ExclusiveTooLong`, `StateFull`. After `StateFull` the byte is taken, but the message
    /// that it completes isn't kept.
    ///
    /// ```
    /// use larboardyuzu::{Error, Flags, State};
    ///
    /// let mut state = State::open(64, 0, 0, Flags::OF_BYTES)?;
    /// assert_eq!([0x90, 0x3C, 0x64].map(|byte| state.byte(byte)), [Ok(()), Ok(()), Err(Error::StateFull)]);
    /// # Ok::<(), Error>(())
    /// ```
    pub fn byte(&mut self, byte: u8) -> Result<()> {
        // SAFETY: nothing else has the handle.
        answer(unsafe { sys::larboardyuzu_state_byte(self.held.raw(), byte) }, 0)
    }

    /// Takes bytes that follow each other.
    ///
    /// ```
    /// use larboardyuzu::{Fact, FactKind, Flags, State};
    ///
    /// let mut state = State::open(64, 16, 16, Flags::OF_BYTES)?;
    /// let block = state.bytes(&[0x92, 0x3C, 0x64, 0xC2, 5]);
    /// assert_eq!((block.end, block.taken), (Ok(()), 5));
    /// let mut facts = [Fact::default(); 8];
    /// assert_eq!(state.facts(0, Some(2), &mut facts)?, 2);
    /// assert_eq!((facts[0].kind(), facts[0].number, facts[0].value), (FactKind::On, 0x3C, 0x64));
    /// assert_eq!((facts[1].kind(), facts[1].number, facts[1].has_bank), (FactKind::Program, 5, false));
    /// # Ok::<(), larboardyuzu::Error>(())
    /// ```
    pub fn bytes(&mut self, bytes: &[u8]) -> Block {
        let mut block = sys::Block::default();
        // SAFETY: as in `packet`.
        let status = unsafe { sys::larboardyuzu_state_bytes(self.held.raw(), bytes.as_ptr(), bytes.len(), &mut block) };
        Block::of(status, block)
    }

    /// Writes the facts of a channel of a group to the front of `facts`, in the order of `larboardyuzu show --state`; without
    /// a channel the counts of the group's system messages. Returns how many there are.
    ///
    /// # Errors
    ///
    /// `BadGroup` and `BadChannel` if the group or the channel isn't 0 to 15; `SmallBuffer`, with the number of facts, if
    /// `facts` is too small, and then nothing is written.
    ///
    /// ```
    /// use larboardyuzu::{Error, Fact, FactKind, Flags, State};
    ///
    /// let mut state = State::open(64, 16, 16, Flags::NONE)?;
    /// state.packet(&[0x11F8_0000])?; // a Timing Clock in group 1
    /// let mut facts = [Fact::default()];
    /// assert_eq!(state.facts(1, None, &mut facts)?, 1);
    /// assert_eq!((facts[0].kind(), facts[0].count), (FactKind::RealTime, 1));
    /// assert_eq!(state.facts(1, None, &mut []), Err(Error::SmallBuffer(1)));
    /// # Ok::<(), Error>(())
    /// ```
    pub fn facts(&self, group: u8, channel: Option<u8>, facts: &mut [Fact]) -> Result<usize> {
        let channel = match channel {
            Some(sys::NO_CHANNEL) => return Err(crate::Error::BadChannel),
            channel => channel.unwrap_or(sys::NO_CHANNEL),
        };
        let (mut written, mut need) = (0, 0);
        // SAFETY: no other call has the handle; the pointers are those of a slice and of two numbers, which nothing else has.
        let status = unsafe {
            sys::larboardyuzu_state_facts(
                self.held.read(),
                group,
                channel,
                facts.as_mut_ptr(),
                facts.len(),
                &mut written,
                &mut need,
            )
        };
        answer(status, need).map(|()| written)
    }

    /// Makes it as it was just after it was opened: a state without facts. It requests no memory.
    ///
    /// ```
    /// use larboardyuzu::{Flags, State};
    ///
    /// let mut state = State::open(64, 16, 16, Flags::NONE)?;
    /// state.packet(&[0x2090_3C64])?;
    /// state.reset();
    /// assert_eq!(state.facts(0, Some(0), &mut [])?, 0);
    /// # Ok::<(), larboardyuzu::Error>(())
    /// ```
    pub fn reset(&mut self) {
        // SAFETY: nothing else has the handle.
        is_done(unsafe { sys::larboardyuzu_state_reset(self.held.raw()) });
    }
}

impl Fact {
    /// What it is about.
    #[must_use]
    pub fn kind(&self) -> FactKind {
        FactKind::of(self.kind)
    }

    /// The bank of a program, as MSB and LSB, if one was selected.
    #[must_use]
    pub fn program_bank(&self) -> Option<(u8, u8)> {
        self.has_bank.then_some((self.bank, self.bank_lsb))
    }
}
