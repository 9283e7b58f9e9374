//! The statuses of the library other than `DONE`.

use crate::sys;
use core::fmt;

/// The result of a call.
pub type Result<T> = core::result::Result<T, Error>;

macro_rules! errors {
    ($($(#[$doc:meta])* $name:ident = $status:ident),* $(,)?) => {
        /// Why a call was refused. After a refusal the value can be used on; docs/c-library.md says what has changed.
        ///
        /// ```
        /// use larboardyuzu::{Down, Error, Flags};
        ///
        /// let mut down = Down::open(64, Flags::NONE)?;
        /// let error = down.packet(&[0x2090_3C64], 0, &mut [0; 8]).unwrap_err();
        /// assert_eq!(error, Error::SmallBuffer(66));
        /// assert_eq!(error.to_string(), "SMALL_BUFFER, 66 needed");
        /// # Ok::<(), Error>(())
        /// ```
        #[derive(Clone, Copy, Debug, PartialEq, Eq, Hash)]
        #[non_exhaustive]
        pub enum Error {
            $($(#[$doc])* $name,)*
            /// The buffer is smaller than any packet or byte may need. Nothing was taken, and a buffer of this size does.
            /// From a block call, 0 means that the slice for the items is short.
            SmallBuffer(usize),
            /// The setup breaks the rule of this number, 0 to 31 (docs/setup.md).
            SetupRule(u8),
            /// The library that is linked has this version, whose binary interface is another one.
            WrongVersion(u32),
            /// A status that this crate doesn't know.
            Other(u32),
        }

        impl Error {
            /// The error of a status other than `DONE`; with `SMALL_BUFFER` the size that does.
            pub(crate) fn of(status: u32, need: usize) -> Error {
                match status {
                    $(sys::$status => Error::$name,)*
                    sys::SMALL_BUFFER => Error::SmallBuffer(need),
                    other => Error::Other(other),
                }
            }

            /// The number of the status, as `larboardyuzu.h` has it; of [`Error::WrongVersion`] 0.
            #[must_use]
            pub fn status(self) -> u32 {
                match self {
                    $(Error::$name => sys::$status,)*
                    Error::SmallBuffer(_) => sys::SMALL_BUFFER,
                    Error::SetupRule(_) => sys::SETUP_RULE,
                    Error::WrongVersion(_) => 0,
                    Error::Other(status) => status,
                }
            }
        }
    };
}

errors! {
    // generate.py: enum larboardyuzu_status
    /// The library was refused memory.
    NoMemory = NO_MEMORY,
    /// The handle is closed. No safe call returns it.
    HandleClosed = HANDLE_CLOSED,
    /// The handle is open already. No safe call returns it.
    AlreadyOpen = ALREADY_OPEN,
    /// `room` isn't in its range (of [`State`](crate::State) also `notes` or `params`).
    BadRoom = BAD_ROOM,
    /// The number of words isn't the one that the message type of the first word has.
    BadWordCount = BAD_WORD_COUNT,
    /// A 7-bit exclusive packet counts more than six bytes.
    BadCount = BAD_COUNT,
    /// A data byte is 128 or more.
    HighBit = HIGH_BIT,
    /// Control change 96, which has no translation.
    DataIncrement = DATA_INCREMENT,
    /// Control change 97, which has no translation.
    DataDecrement = DATA_DECREMENT,
    /// The exclusive has more than `room` bytes, and is dropped.
    ExclusiveTooLong = EXCLUSIVE_TOO_LONG,
    /// The group or cable isn't 0 to 15.
    BadGroup = BAD_GROUP,
    /// There is none. Most safe calls return `None` instead.
    Nothing = NOTHING,
    /// A [`State`](crate::State) of packets takes no bytes, and one of bytes no packets.
    OtherKind = OTHER_KIND,
    /// The number of streams isn't 1 to 64.
    BadStreams = BAD_STREAMS,
    /// The setup isn't UTF-8, or isn't TOML.
    SetupSyntax = SETUP_SYNTAX,
    /// There is no scaling between these widths.
    BadBits = BAD_BITS,
    /// The value has more bits than its width.
    BadValue = BAD_VALUE,
    /// The message adds to a list of the state that is full.
    StateFull = STATE_FULL,
    /// The call doesn't have this flag.
    BadFlags = BAD_FLAGS,
    /// The number of bytes isn't the one that the call takes.
    BadSize = BAD_SIZE,
    /// The channel isn't 0 to 15.
    BadChannel = BAD_CHANNEL,
    // generate.py: end
}

/// `Ok` if the status is `DONE`.
pub(crate) fn answer(status: u32, need: usize) -> Result<()> {
    match status {
        sys::DONE => Ok(()),
        status => Err(Error::of(status, need)),
    }
}

/// `Ok(None)` if the status is `NOTHING`, otherwise the value or the error.
pub(crate) fn found<T>(status: u32, value: T) -> Result<Option<T>> {
    match status {
        sys::NOTHING => Ok(None),
        status => answer(status, 0).map(|()| Some(value)),
    }
}

impl fmt::Display for Error {
    /// Writes the library's name of the status, and the number that belongs to it: `SMALL_BUFFER, 66 needed`.
    fn fmt(&self, out: &mut fmt::Formatter<'_>) -> fmt::Result {
        if let Error::WrongVersion(version) = self {
            return write!(out, "the library has version {version:06x}, and this crate is for {:06x}", sys::VERSION);
        }
        crate::names::status_name(self.status(), out)?;
        match self {
            Error::SmallBuffer(need) => write!(out, ", {need} needed"),
            Error::SetupRule(rule) => write!(out, " {rule}"),
            _ => Ok(()),
        }
    }
}

impl core::error::Error for Error {}
