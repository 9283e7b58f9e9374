//! The flags of a call that opens, and of `packets_in`.

use crate::sys;
use core::ops::BitOr;

/// Flags of a call. They are joined by `|`; a call that doesn't have one of them refuses it as
/// [`BadFlags`](crate::Error::BadFlags).
///
/// ```
/// use larboardyuzu::{Down, Error, Flags};
///
/// assert!(Down::open(64, Flags::COMPACT | Flags::PAIRED).is_ok());
/// assert_eq!(Down::open(64, Flags::OF_BYTES).err(), Some(Error::BadFlags));
/// ```
#[derive(Clone, Copy, Debug, Default, PartialEq, Eq, Hash)]
pub struct Flags(u32);

impl Flags {
    /// No flag.
    pub const NONE: Flags = Flags(0);
    // generate.py: enum larboardyuzu_flag
    /// [`Down`](crate::Down): omit what the receiver of a lane already knows.
    pub const COMPACT: Flags = Flags(sys::COMPACT);
    /// [`Down`](crate::Down), [`Up`](crate::Up): controllers n and n + 32 are one controller of fourteen bits.
    pub const PAIRED: Flags = Flags(sys::PAIRED);
    /// [`State`](crate::State): it takes the bytes of one MIDI 1.0 stream, not packets.
    pub const OF_BYTES: Flags = Flags(sys::OF_BYTES);
    /// [`packets_in`](crate::packets_in): the least significant byte of each word comes first.
    pub const LITTLE_ENDIAN: Flags = Flags(sys::LITTLE_ENDIAN);
    // generate.py: end

    /// The number that C has.
    #[must_use]
    pub const fn bits(self) -> u32 {
        self.0
    }
}

impl BitOr for Flags {
    type Output = Flags;

    fn bitor(self, other: Flags) -> Flags {
        Flags(self.0 | other.0)
    }
}
