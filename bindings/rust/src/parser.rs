//! The messages of a MIDI 1.0 stream.

use crate::error::{answer, Result};
use crate::handle::{is_done, Held};
use crate::{sys, Block, Line, Outcome};

/// Cuts a MIDI 1.0 stream into whole messages: each has its status byte, also if that was running, and an exclusive goes from F0
/// to F7. A Real Time message that comes within another message is written before it.
///
/// ```
/// use larboardyuzu::{parser_size, Parser};
///
/// let mut parser = Parser::open(64)?;
/// let mut message = vec![0; parser_size(64)];
/// let mut found = Vec::new();
/// for byte in [0x90, 0x3C, 0x64, 0x3E, 0xF8, 0x64] {
///     let outcome = parser.byte(byte, 0, &mut message)?;
///     if outcome.written > 0 {
///         found.push(message[..outcome.written].to_vec());
///     }
/// }
/// assert_eq!(found, [vec![0x90, 0x3C, 0x64], vec![0xF8], vec![0x90, 0x3E, 0x64]]);
/// # Ok::<(), larboardyuzu::Error>(())
/// ```
#[derive(Debug)]
pub struct Parser {
    held: Held,
}

impl Parser {
    /// Opens a parser. `room`, 6 to 1,048,576, is the most bytes of an exclusive between F0 and F7.
    ///
    /// # Errors
    ///
    /// `BadRoom`, `NoMemory`, `WrongVersion`.
    ///
    /// ```
    /// use larboardyuzu::{Error, Parser};
    ///
    /// assert_eq!(Parser::open(1_048_577).err(), Some(Error::BadRoom));
    /// ```
    pub fn open(room: u32) -> Result<Parser> {
        // SAFETY: the pointer is that of a closed handle, which nothing else has.
        let open = |raw| unsafe { sys::larboardyuzu_parser_open(raw, room) };
        Ok(Parser { held: Held::open(sys::larboardyuzu_parser_close, open)? })
    }

    /// Takes one byte and writes the message that it completes to the front of `messages`.
    ///
    /// # Errors
    ///
    /// `SmallBuffer` if `messages` has fewer places than [`parser_size`](crate::parser_size), whatever the byte is;
    /// `ExclusiveTooLong` at the byte that is one too many.
    ///
    /// ```
    /// use larboardyuzu::{Kind, Line, Parser};
    ///
    /// let mut parser = Parser::open(64)?;
    /// let mut message = [0; 66];
    /// parser.byte(0x90, 3, &mut message)?;
    /// let outcome = parser.byte(0xF6, 4, &mut message)?; // Tune Request cuts the note off
    /// assert_eq!(message[..outcome.written], [0xF6]);
    /// assert_eq!(outcome.first(), Some(Line { offset: 3, kind: Kind::CutMessage }));
    /// # Ok::<(), larboardyuzu::Error>(())
    /// ```
    pub fn byte(&mut self, byte: u8, offset: u64, messages: &mut [u8]) -> Result<Outcome> {
        let mut outcome = Outcome::default();
        // SAFETY: the pointers and the size are those of a slice and of a struct, which don't overlap.
        let status = unsafe {
            sys::larboardyuzu_parser_byte(
                self.held.raw(),
                byte,
                offset,
                messages.as_mut_ptr(),
                messages.len(),
                &mut outcome,
            )
        };
        answer(status, outcome.need).map(|()| outcome)
    }

    /// Takes bytes that follow each other. `offset` is that of the first; each byte adds 1. There is an outcome for each byte that
    /// completes a message or has a line, and the messages follow each other in `messages`.
    ///
    /// ```
    /// use larboardyuzu::{Outcome, Parser};
    ///
    /// let mut parser = Parser::open(64)?;
    /// let (mut messages, mut outcomes) = ([0; 128], [Outcome::default(); 8]);
    /// let block = parser.bytes(&[0xC0, 5, 6], 0, &mut messages, &mut outcomes);
    /// assert_eq!((block.end, block.taken, block.items), (Ok(()), 3, 2));
    /// assert_eq!(messages[..block.written], [0xC0, 5, 0xC0, 6]);
    /// # Ok::<(), larboardyuzu::Error>(())
    /// ```
    pub fn bytes(&mut self, bytes: &[u8], offset: u64, messages: &mut [u8], outcomes: &mut [Outcome]) -> Block {
        let mut block = sys::Block::default();
        // SAFETY: as in `byte`.
        let status = unsafe {
            sys::larboardyuzu_parser_bytes(
                self.held.raw(),
                bytes.as_ptr(),
                bytes.len(),
                offset,
                messages.as_mut_ptr(),
                messages.len(),
                outcomes.as_mut_ptr(),
                outcomes.len(),
                &mut block,
            )
        };
        Block::of(status, block)
    }

    /// The line of what is open at the end of the stream, if anything is.
    ///
    /// ```
    /// use larboardyuzu::{Kind, Line, Parser};
    ///
    /// let mut parser = Parser::open(64)?;
    /// parser.byte(0x90, 12, &mut [0; 66])?;
    /// parser.byte(0x3C, 13, &mut [0; 66])?;
    /// assert_eq!(parser.end(), Some(Line { offset: 12, kind: Kind::OpenMessage }));
    /// # Ok::<(), larboardyuzu::Error>(())
    /// ```
    #[must_use]
    pub fn end(&self) -> Option<Line> {
        let mut line = sys::Line::default();
        // SAFETY: no other call has the handle, and nothing else has the struct.
        let status = unsafe { sys::larboardyuzu_parser_end(self.held.read(), &mut line) };
        (status == sys::DONE).then(|| line.line()).flatten()
    }

    /// Makes it as it was just after it was opened. It requests no memory.
    ///
    /// ```
    /// use larboardyuzu::{Kind, Parser};
    ///
    /// let mut parser = Parser::open(64)?;
    /// parser.byte(0x90, 0, &mut [0; 66])?;
    /// parser.reset();
    /// let outcome = parser.byte(0x3C, 1, &mut [0; 66])?; // no status is running
    /// assert_eq!(outcome.first().map(|it| it.kind), Some(Kind::Stray));
    /// # Ok::<(), larboardyuzu::Error>(())
    /// ```
    pub fn reset(&mut self) {
        // SAFETY: nothing else has the handle.
        is_done(unsafe { sys::larboardyuzu_parser_reset(self.held.raw()) });
    }
}
