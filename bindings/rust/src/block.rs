//! Calls over many packets or bytes.

use crate::error::{answer, Result};
use crate::sys;

/// How far a call over many packets or bytes came.
///
/// A caller goes on after `taken`, whatever `end` is, as long as `taken` isn't 0 or what is short has been mended.
#[derive(Clone, Copy, Debug, PartialEq, Eq)]
#[must_use = "it says how much was taken"]
pub struct Block {
    /// How many words or bytes were taken from the front of the input, those of a refused packet or byte too.
    pub taken: usize,
    /// How many places of the first buffer were written.
    pub written: usize,
    /// How many items were written.
    pub items: usize,
    /// How many of `taken`, at its end, are the packet or byte that was refused; 0 if none was.
    pub refused: usize,
    /// If the rest of the first buffer is too small for the next packet or byte, a whole size that does; otherwise 0.
    pub need: usize,
    /// 1 if no item is left for the next packet or byte, otherwise 0.
    pub need_items: usize,
    /// `Ok` exactly if all was taken; otherwise why the call ended:
    /// * [`SmallBuffer`](crate::Error::SmallBuffer) before a packet or byte for which a buffer may be too small,
    /// * [`BadWordCount`](crate::Error::BadWordCount) before a last packet whose words aren't all there (`refused` is 0),
    /// * otherwise the error of the packet or byte that was refused, the last one taken.
    pub end: Result<()>,
}

impl Block {
    pub(crate) fn of(status: u32, raw: sys::Block) -> Block {
        let sys::Block { taken, written, items, refused, need, need_items } = raw;
        Block { taken, written, items, refused, need, need_items, end: answer(status, need) }
    }
}

/// An item of a block call, which says how many places of the buffer are its own.
pub trait Written {
    /// How many places of the buffer the item has.
    fn written(&self) -> usize;
}

macro_rules! written {
    ($($item:ident),*) => {
        $(impl Written for sys::$item {
            fn written(&self) -> usize {
                self.written
            }
        })*
    };
}
written!(Piece, Outcome, Replies, Part);

/// The items that a block call wrote, each with its own part of the buffer.
///
/// ```
/// use larboardyuzu::{parts, Outcome, Parser};
///
/// let mut parser = Parser::open(64)?;
/// let (mut messages, mut outcomes) = ([0; 128], [Outcome::default(); 8]);
/// let block = parser.bytes(&[0x90, 0x3C, 0x64, 0xF8, 0x3E, 0x64], 0, &mut messages, &mut outcomes);
/// let found: Vec<_> = parts(&outcomes[..block.items], &messages).map(|(outcome, part)| (outcome.offset, part)).collect();
/// assert_eq!(found, [(2, &[0x90, 0x3C, 0x64][..]), (3, &[0xF8]), (5, &[0x90, 0x3E, 0x64])]);
/// # Ok::<(), larboardyuzu::Error>(())
/// ```
///
/// # Panics
///
/// The iterator panics if the items have more places than the buffer, so if they aren't those of the call that wrote it.
pub fn parts<'a, I: Written, T>(items: &'a [I], buffer: &'a [T]) -> impl Iterator<Item = (&'a I, &'a [T])> {
    let mut rest = buffer;
    items.iter().map(move |item| {
        let (part, after) = rest.split_at(item.written());
        rest = after;
        (item, part)
    })
}
