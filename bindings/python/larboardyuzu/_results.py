"""What the calls return: enums, and tuples with names."""
from __future__ import annotations

from dataclasses import dataclass
from enum import IntEnum
from typing import Generic, List, NamedTuple, Optional, Sequence, Tuple, TypeVar

from . import _numbers


class Status(IntEnum):
    """Why a call was refused. docs/c-library.md says what has changed after a refusal."""

    # generate.py: enum larboardyuzu_status
    DONE = _numbers.DONE
    NO_MEMORY = _numbers.NO_MEMORY
    HANDLE_CLOSED = _numbers.HANDLE_CLOSED
    ALREADY_OPEN = _numbers.ALREADY_OPEN
    BAD_ROOM = _numbers.BAD_ROOM
    BAD_WORD_COUNT = _numbers.BAD_WORD_COUNT
    SMALL_BUFFER = _numbers.SMALL_BUFFER
    BAD_COUNT = _numbers.BAD_COUNT
    HIGH_BIT = _numbers.HIGH_BIT
    DATA_INCREMENT = _numbers.DATA_INCREMENT
    DATA_DECREMENT = _numbers.DATA_DECREMENT
    EXCLUSIVE_TOO_LONG = _numbers.EXCLUSIVE_TOO_LONG
    BAD_GROUP = _numbers.BAD_GROUP
    NOTHING = _numbers.NOTHING
    OTHER_KIND = _numbers.OTHER_KIND
    BAD_STREAMS = _numbers.BAD_STREAMS
    SETUP_SYNTAX = _numbers.SETUP_SYNTAX
    SETUP_RULE = _numbers.SETUP_RULE
    BAD_BITS = _numbers.BAD_BITS
    BAD_VALUE = _numbers.BAD_VALUE
    STATE_FULL = _numbers.STATE_FULL
    BAD_FLAGS = _numbers.BAD_FLAGS
    BAD_SIZE = _numbers.BAD_SIZE
    BAD_CHANNEL = _numbers.BAD_CHANNEL
    # generate.py: end


def _word(name: str) -> str:
    """A name of the library as the program's listing writes it."""
    return name.lower().replace("_", "-")


class Kind(IntEnum):
    """What a line of the listing reports: something that has no counterpart. docs/output.md explains each.

    name: the library's, such as NOTE_ATTRIBUTE. word: the program's in its listing, such as note-attribute."""

    # generate.py: enum larboardyuzu_kind
    UTILITY = _numbers.UTILITY
    STREAM = _numbers.STREAM
    RESERVED = _numbers.RESERVED
    DATA8 = _numbers.DATA8
    FLEX = _numbers.FLEX
    NOTE_ATTRIBUTE = _numbers.NOTE_ATTRIBUTE
    NOTE_CONTROLLER = _numbers.NOTE_CONTROLLER
    NOTE_BEND = _numbers.NOTE_BEND
    NOTE_MANAGEMENT = _numbers.NOTE_MANAGEMENT
    NULL_PARAMETER = _numbers.NULL_PARAMETER
    RELATIVE_PARAMETER = _numbers.RELATIVE_PARAMETER
    MISPLACED_CONTROLLER = _numbers.MISPLACED_CONTROLLER
    FINE_CONTROLLER = _numbers.FINE_CONTROLLER
    STRAY_EXCLUSIVE = _numbers.STRAY_EXCLUSIVE
    CUT_EXCLUSIVE = _numbers.CUT_EXCLUSIVE
    OPEN_EXCLUSIVE = _numbers.OPEN_EXCLUSIVE
    STRAY = _numbers.STRAY
    UNDEFINED = _numbers.UNDEFINED
    CUT_MESSAGE = _numbers.CUT_MESSAGE
    OPEN_MESSAGE = _numbers.OPEN_MESSAGE
    IGNORED_DATA_ENTRY = _numbers.IGNORED_DATA_ENTRY
    # generate.py: end

    @property
    def word(self) -> str:
        return _word(self.name)


class Heard(IntEnum):
    """What an endpoint did with a stream message or a whole exclusive. docs/midi-ci.md explains each.

    name: the library's, such as NOT_CI. word: the program's in its listing, such as not-ci."""

    # generate.py: enum larboardyuzu_heard
    NOT_CI = _numbers.HEARD_NOT_CI
    SHORT = _numbers.HEARD_SHORT
    BAD_ADDRESS = _numbers.HEARD_BAD_ADDRESS
    RESERVED_MUID = _numbers.HEARD_RESERVED_MUID
    NO_BLOCK = _numbers.HEARD_NO_BLOCK
    SILENT = _numbers.HEARD_SILENT
    COLLISION = _numbers.HEARD_COLLISION
    OLD_VERSION = _numbers.HEARD_OLD_VERSION
    NOT_OURS = _numbers.HEARD_NOT_OURS
    MOVED = _numbers.HEARD_MOVED
    REPORT = _numbers.HEARD_REPORT
    BROADCAST = _numbers.HEARD_BROADCAST
    ANSWERED = _numbers.HEARD_ANSWERED
    PASSED = _numbers.HEARD_PASSED
    NAK = _numbers.HEARD_NAK
    NO_ANSWER = _numbers.HEARD_NO_ANSWER
    BAD_FORMAT = _numbers.HEARD_BAD_FORMAT
    # generate.py: end

    @property
    def word(self) -> str:
        return _word(self.name)


class FactKind(IntEnum):
    """What a fact is about."""

    # generate.py: enum larboardyuzu_fact_kind
    ON = _numbers.FACT_ON
    OFF = _numbers.FACT_OFF
    MODE = _numbers.FACT_MODE
    POLY = _numbers.FACT_POLY
    CONTROL = _numbers.FACT_CONTROL
    PRESSURE = _numbers.FACT_PRESSURE
    BEND = _numbers.FACT_BEND
    PROGRAM = _numbers.FACT_PROGRAM
    REGISTERED = _numbers.FACT_REGISTERED
    ASSIGNABLE = _numbers.FACT_ASSIGNABLE
    SYSTEM = _numbers.FACT_SYSTEM
    REAL_TIME = _numbers.FACT_REAL_TIME
    # generate.py: end


class Joined(IntEnum):
    """What a packet is to the 8-bit exclusive of its stream."""

    # generate.py: enum larboardyuzu_joined
    OTHER = _numbers.JOINED_OTHER
    HELD = _numbers.JOINED_HELD
    WHOLE = _numbers.JOINED_WHOLE
    STRAY = _numbers.JOINED_STRAY
    RESTARTED = _numbers.JOINED_RESTARTED
    RESTARTED_WHOLE = _numbers.JOINED_RESTARTED_WHOLE
    FULL = _numbers.JOINED_FULL
    TOO_LONG = _numbers.JOINED_TOO_LONG
    # generate.py: end


class Refused(Exception):
    """A call that was refused.

    status: why. offset: of the packet or byte, or None if the call has none. need: with SMALL_BUFFER a size that does. rule: with
    SETUP_RULE the number of the rule, 0 to 31."""

    def __init__(
        self, status: Status, offset: Optional[int] = None, need: Optional[int] = None, rule: Optional[int] = None
    ) -> None:
        super().__init__(status, offset, need, rule)
        self.status, self.offset, self.need, self.rule = status, offset, need, rule

    def __str__(self) -> str:
        parts = [self.status.name]
        if self.rule is not None:
            parts.append(str(self.rule))
        if self.need is not None:
            parts.append(f"{self.need} needed")
        if self.offset is not None:
            parts.append(f"at {self.offset}")
        return " ".join(parts)


def must_be_open(status: int) -> None:
    """Raises Refused if the handle is closed, or if a state takes the other kind of input: nothing was taken."""
    if status in (_numbers.HANDLE_CLOSED, _numbers.OTHER_KIND):
        raise Refused(Status(status))


class Line(NamedTuple):
    """A line of the listing: something that has no counterpart."""

    offset: int
    group: Optional[int]  # or the cable; None if it has none: of a Parser, and of utility, stream and reserved packets
    kind: Kind


class Piece(NamedTuple):
    """What a packet became on the way down."""

    data: bytes  # b"" if it isn't carried, or its exclusive goes on
    lane: int  # the group whose MIDI 1.0 stream the bytes belong to
    line: Optional[Line]


class Raised(NamedTuple):
    """What a byte led to on the way up."""

    offset: int
    words: List[int]  # one packet, or all those of an exclusive
    lines: Tuple[Line, ...]  # none, one or two


class Message(NamedTuple):
    """What a byte led to in the parser, or in the packer of USB-MIDI events."""

    offset: int
    data: bytes  # the message, or its events
    lines: Tuple[Line, ...]


class Replies(NamedTuple):
    """What an endpoint did with a packet."""

    words: List[int]  # whole packets, in the order of sending
    heard: Optional[Heard]  # None if the packet is no stream message and ends no exclusive
    group: Optional[int]  # of a packet of an exclusive, and so of its line; None for other packets
    line: Optional[Line]  # an exclusive that was cut off or is stray


class Profile(NamedTuple):
    """A profile of a setup."""

    block: int
    group: Optional[int]  # None if it belongs to the whole function block
    channel: Optional[int]  # None if it belongs to the whole group or function block
    id: bytes
    is_on: bool


class Part(NamedTuple):
    """What a packet added to the 8-bit exclusive of its stream. One that makes it too long raises Refused: TOO_LONG doesn't occur."""

    data: bytes  # the exclusive that it ends
    answer: Joined
    group: int
    stream: int
    cut_at: Optional[int]  # the offset at which the exclusive began that it cut off


class Fact(NamedTuple):
    """One thing that the messages so far have set in a receiver, or a note message that came. A pressure of 0 and a bend at its centre have
    no fact."""

    kind: FactKind
    group: int
    channel: Optional[int]  # None of the counts of system messages
    number: int  # the note, the controller, the program, or the LSB of the parameter's number
    bank: Optional[Tuple[int, int]]  # the bank of a program (MSB, LSB), if it has one
    parameter_bank: Optional[int]  # the MSB of the parameter's number
    value: Optional[int]  # 7 or 14 bits after bytes, 16 or 32 after packets
    count: int  # type: ignore[assignment]  # how many system messages, at most 2**64 - 1; a tuple has a method of that name
    is_loose: bool  # a relative change came after the value


class DownTranslation(NamedTuple):
    """What an array of packets became on the way down."""

    lanes: List[bytes]  # sixteen: the MIDI 1.0 stream of each group
    lines: List[Line]
    refused: List[Refused]  # each with its offset
    taken: int  # how many words were taken; fewer than there are if the words of the last packet aren't all there


class UpTranslation(NamedTuple):
    """What an array of bytes became on the way up."""

    words: Sequence[int]  # an array("I") of whole packets
    lines: List[Line]
    refused: List[Refused]  # each with its offset


class Carried(NamedTuple):
    """What one USB-MIDI 1.0 event carries."""

    cable: int
    data: bytes


class Cut(NamedTuple):
    """The words of the packets in a sequence of bytes."""

    words: Sequence[int]  # an array("I"), which the calls that take words don't copy
    taken: int  # how many bytes were taken


Item = TypeVar("Item")


@dataclass(frozen=True)
class Block(Generic[Item]):
    """How far a call over many packets or bytes came.

    items: what each packet led to, or each byte that completes something or has a line. taken: how many words or bytes were taken, those
    of a refused packet or byte too. refused: how many of them, at the end, are the packet or byte that was refused; 0 if none was.
    error: why the call ended, or None if all was taken. If it is BAD_WORD_COUNT and refused is 0, the words of the last packet aren't all
    there, and it wasn't taken."""

    items: List[Item]
    taken: int
    refused: int
    error: Optional[Refused]
