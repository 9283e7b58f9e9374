//! The enums of the header, with the library's names for them, and the lines of the listing.

use crate::sys;
use core::fmt;
use core::str::from_utf8;

macro_rules! numbers {
    ($(#[$head:meta])* $name:ident { $($(#[$doc:meta])* $variant:ident = $constant:ident),* $(,)? }) => {
        $(#[$head])*
        #[derive(Clone, Copy, Debug, PartialEq, Eq, Hash)]
        #[non_exhaustive]
        pub enum $name {
            $($(#[$doc])* $variant,)*
            /// A number that this crate doesn't know.
            Other(u8),
        }

        impl $name {
            pub(crate) fn of(number: u8) -> $name {
                match number {
                    $(sys::$constant => $name::$variant,)*
                    other => $name::Other(other),
                }
            }

            /// The number that `larboardyuzu.h` has.
            #[must_use]
            pub fn number(self) -> u8 {
                match self {
                    $($name::$variant => sys::$constant,)*
                    $name::Other(number) => number,
                }
            }
        }
    };
}

numbers! {
    /// What a line of the listing reports: something that has no counterpart. docs/output.md explains each.
    ///
    /// ```
    /// use larboardyuzu::Kind;
    ///
    /// assert_eq!((Kind::NoteAttribute.number(), Kind::NoteAttribute.to_string().as_str()), (6, "NOTE_ATTRIBUTE"));
    /// ```
    Kind {
        // generate.py: enum larboardyuzu_kind
        /// A utility packet.
        Utility = UTILITY,
        /// A stream message.
        Stream = STREAM,
        /// A packet of a reserved type, status, opcode or form.
        Reserved = RESERVED,
        /// 8-bit data.
        Data8 = DATA8,
        /// Flex data.
        Flex = FLEX,
        /// A note with an attribute, which is carried without it.
        NoteAttribute = NOTE_ATTRIBUTE,
        /// A controller of one note.
        NoteController = NOTE_CONTROLLER,
        /// The bend of one note.
        NoteBend = NOTE_BEND,
        /// The management of one note.
        NoteManagement = NOTE_MANAGEMENT,
        /// A value or change of the null parameter 127/127.
        NullParameter = NULL_PARAMETER,
        /// A relative change of a parameter.
        RelativeParameter = RELATIVE_PARAMETER,
        /// A MIDI 2.0 control change of a bank, data entry or parameter number, which have messages of their own.
        MisplacedController = MISPLACED_CONTROLLER,
        /// A MIDI 2.0 control change of an LSB, if controllers are paired.
        FineController = FINE_CONTROLLER,
        /// A Continue or End if no exclusive is open.
        StrayExclusive = STRAY_EXCLUSIVE,
        /// An exclusive that was cut off.
        CutExclusive = CUT_EXCLUSIVE,
        /// An exclusive that is open at the end.
        OpenExclusive = OPEN_EXCLUSIVE,
        /// A byte that belongs to nothing.
        Stray = STRAY,
        /// A status byte that no message has.
        Undefined = UNDEFINED,
        /// A message that was cut off.
        CutMessage = CUT_MESSAGE,
        /// A message that is open at the end.
        OpenMessage = OPEN_MESSAGE,
        /// A data entry without a selected parameter.
        IgnoredDataEntry = IGNORED_DATA_ENTRY,
        // generate.py: end
    }
}

numbers! {
    /// What an endpoint did with a stream message or a whole exclusive. docs/midi-ci.md explains each.
    Heard {
        // generate.py: enum larboardyuzu_heard
        /// It is no MIDI-CI message.
        NotCi = HEARD_NOT_CI,
        /// The message ends before its fields do.
        Short = HEARD_SHORT,
        /// The message has an address that doesn't exist.
        BadAddress = HEARD_BAD_ADDRESS,
        /// The message has a reserved MUID as its source.
        ReservedMuid = HEARD_RESERVED_MUID,
        /// No function block with MIDI-CI has the group.
        NoBlock = HEARD_NO_BLOCK,
        /// The block has no MUID left.
        Silent = HEARD_SILENT,
        /// The sender has the block's MUID.
        Collision = HEARD_COLLISION,
        /// The message has version 00.
        OldVersion = HEARD_OLD_VERSION,
        /// The message is for others.
        NotOurs = HEARD_NOT_OURS,
        /// The block's MUID was invalidated, and it took the next one.
        Moved = HEARD_MOVED,
        /// A reply, a report, ACK or NAK.
        Report = HEARD_REPORT,
        /// The message was sent to all, and needs no answer.
        Broadcast = HEARD_BROADCAST,
        /// The message was answered.
        Answered = HEARD_ANSWERED,
        /// Property Exchange, which is passed over.
        Passed = HEARD_PASSED,
        /// The message was answered by a NAK.
        Nak = HEARD_NAK,
        /// A stream message that has no answer.
        NoAnswer = HEARD_NO_ANSWER,
        /// A stream message of one packet that says that it has more.
        BadFormat = HEARD_BAD_FORMAT,
        // generate.py: end
    }
}

numbers! {
    /// What a [`Fact`](sys::Fact) is about.
    FactKind {
        // generate.py: enum larboardyuzu_fact_kind
        /// A note on, also of a key that is up by now: `number` is the note, `value` its velocity.
        On = FACT_ON,
        /// A note off, the same.
        Off = FACT_OFF,
        /// A channel mode message: `number` is 120 to 127.
        Mode = FACT_MODE,
        /// The pressure of a key: `number` is the note.
        Poly = FACT_POLY,
        /// A controller: `number` is its index.
        Control = FACT_CONTROL,
        /// The pressure of the channel, unless it is 0.
        Pressure = FACT_PRESSURE,
        /// The bend, unless it is at its centre.
        Bend = FACT_BEND,
        /// The program: `number`, and if `has_bank` the bank in `bank` and `bank_lsb`.
        Program = FACT_PROGRAM,
        /// A registered parameter: `bank` and `number`.
        Registered = FACT_REGISTERED,
        /// An assignable parameter: `bank` and `number`.
        Assignable = FACT_ASSIGNABLE,
        /// The number of system common messages and exclusives, in `count`.
        System = FACT_SYSTEM,
        /// The number of System Real Time messages, in `count`.
        RealTime = FACT_REAL_TIME,
        // generate.py: end
    }
}

numbers! {
    /// What a packet is to the 8-bit exclusive of its stream.
    Joined {
        // generate.py: enum larboardyuzu_joined
        /// It is no part of an 8-bit exclusive.
        NoPart = JOINED_OTHER,
        /// Its part is kept.
        Held = JOINED_HELD,
        /// It ends an exclusive.
        Whole = JOINED_WHOLE,
        /// It continues or ends an exclusive, and none is open.
        Stray = JOINED_STRAY,
        /// It begins an exclusive and cuts off the one that began at `cut_at`.
        Restarted = JOINED_RESTARTED,
        /// It is a whole exclusive and cuts off the one that began at `cut_at`.
        RestartedWhole = JOINED_RESTARTED_WHOLE,
        /// It begins an exclusive, and all slots are taken: it is passed over.
        Full = JOINED_FULL,
        /// It makes an exclusive longer than `room`, which is dropped. The calls of this crate return
        /// [`ExclusiveTooLong`](crate::Error::ExclusiveTooLong) instead.
        TooLong = JOINED_TOO_LONG,
        // generate.py: end
    }
}

/// A line of the listing: something that has no counterpart.
#[derive(Clone, Copy, Debug, PartialEq, Eq, Hash)]
pub struct Line {
    /// The offset of what it reports, as the caller numbered it.
    pub offset: u64,
    /// What it reports.
    pub kind: Kind,
}

impl Line {
    pub(crate) fn of(offset: u64, kind: u8) -> Option<Line> {
        (kind != sys::NO_LINE).then(|| Line { offset, kind: Kind::of(kind) })
    }
}

impl sys::Line {
    /// The line, unless there is none.
    #[must_use]
    pub fn line(&self) -> Option<Line> {
        Line::of(self.offset, self.kind)
    }
}

impl sys::Outcome {
    /// If the byte cut something off, the line of that; otherwise the line of the byte.
    #[must_use]
    pub fn first(&self) -> Option<Line> {
        self.first.line()
    }

    /// If the byte cut something off, the line of the byte.
    #[must_use]
    pub fn second(&self) -> Option<Line> {
        self.second.line()
    }

    /// Its lines of the listing, in order: none, one or two.
    pub fn lines(&self) -> impl Iterator<Item = Line> {
        [self.first(), self.second()].into_iter().flatten()
    }
}

/// A group or channel, 0 to 15; `None` of any other number, such as 255.
pub(crate) fn numbered(number: u8) -> Option<u8> {
    (number < 16).then_some(number)
}

impl sys::Piece {
    /// Its line of the listing.
    #[must_use]
    pub fn line(&self) -> Option<Line> {
        Line::of(self.offset, self.kind)
    }

    /// The group of its line. `None` without a line, and for utility, stream and reserved packets.
    #[must_use]
    pub fn group(&self) -> Option<u8> {
        self.line().and(numbered(self.group))
    }
}

type NameCall = unsafe extern "C" fn(u32, *mut u8, usize, *mut usize) -> u32;

/// Writes the library's name of a number, as this call has it and with each byte as `spell` has it, or the number if it has no
/// name.
fn spelled(call: NameCall, number: u32, spell: fn(u8) -> u8, out: &mut fmt::Formatter<'_>) -> fmt::Result {
    let (mut text, mut length) = ([0; sys::MOST_NAME], 0);
    // SAFETY: the pointers are those of an array of this size and of a number, which nothing else has.
    let status = unsafe { call(number, text.as_mut_ptr(), text.len(), &mut length) };
    text.iter_mut().for_each(|byte| *byte = spell(*byte));
    match text.get(..length).and_then(|it| from_utf8(it).ok()) {
        Some(name) if status == sys::DONE => out.pad(name),
        _ => write!(out, "{number}"),
    }
}

fn name(call: NameCall, number: u32, out: &mut fmt::Formatter<'_>) -> fmt::Result {
    spelled(call, number, |byte| byte, out)
}

/// A number's name as the program's listing writes it: in lower case with hyphens.
struct Word(NameCall, u32);

impl fmt::Display for Word {
    fn fmt(&self, out: &mut fmt::Formatter<'_>) -> fmt::Result {
        let spell = |byte: u8| if byte == b'_' { b'-' } else { byte.to_ascii_lowercase() };
        spelled(self.0, self.1, spell, out)
    }
}

impl Kind {
    /// Its word in the program's listing (docs/output.md).
    ///
    /// ```
    /// assert_eq!(larboardyuzu::Kind::NoteAttribute.word().to_string(), "note-attribute");
    /// ```
    #[must_use]
    pub fn word(self) -> impl fmt::Display {
        Word(sys::larboardyuzu_kind_name, self.number().into())
    }
}

impl Heard {
    /// Its word in the program's listing (docs/output.md).
    ///
    /// ```
    /// assert_eq!(larboardyuzu::Heard::NotCi.word().to_string(), "not-ci");
    /// ```
    #[must_use]
    pub fn word(self) -> impl fmt::Display {
        Word(sys::larboardyuzu_heard_name, self.number().into())
    }
}

pub(crate) fn status_name(status: u32, out: &mut fmt::Formatter<'_>) -> fmt::Result {
    name(sys::larboardyuzu_status_name, status, out)
}

impl fmt::Display for Kind {
    /// Writes the library's name, such as `NOTE_ATTRIBUTE`. [`word`](Kind::word) is the one of the listing.
    fn fmt(&self, out: &mut fmt::Formatter<'_>) -> fmt::Result {
        name(sys::larboardyuzu_kind_name, self.number().into(), out)
    }
}

impl fmt::Display for Heard {
    /// Writes the library's name, such as `NOT_CI`. [`word`](Heard::word) is the one of the listing.
    fn fmt(&self, out: &mut fmt::Formatter<'_>) -> fmt::Result {
        name(sys::larboardyuzu_heard_name, self.number().into(), out)
    }
}
