"""MIDI 2.0 packets (UMP), MIDI 1.0 bytes, MIDI-CI, 8-bit exclusives and USB-MIDI events, over the C library Larboardyuzu, whose calls are
proved.

    with Down(room=1024) as down:
        piece = down.packet([0x40903C00, 0xC9240000])
    piece.data, piece.lane, piece.line         # b"\\x90\\x3c\\x64", 0, None

A call that is refused raises Refused, which has the status. A number that doesn't fit its type in C raises OverflowError (of a sequence of
bytes ValueError), so that none is cut to its lower bits. A handle is used by one thread at a time. The library is
liblarboardyuzu.so.0.3, or the file that the variable LARBOARDYUZU_LIBRARY of the environment names."""
from ._handles import Down, Endpoint, Parser, State, Sysex8, Up, Usb
from ._numbers import LEAST_ROOM, MOST_NOTES, MOST_PARAMS, MOST_REPLY_WORDS, MOST_ROOM, MOST_SETUP_BYTES
from ._pure import (
    exclusive_packets,
    packet_line,
    packets_in,
    packets_of,
    scale_down,
    scale_up,
    sysex8_packets,
    usb_carried,
    version,
    words_in_packet,
)
from ._results import (
    Block,
    Carried,
    Cut,
    DownTranslation,
    Fact,
    FactKind,
    Heard,
    Joined,
    Kind,
    Line,
    Message,
    Part,
    Piece,
    Profile,
    Raised,
    Refused,
    Replies,
    Status,
    UpTranslation,
)

__version__ = "0.3.0"

__all__ = [
    "LEAST_ROOM",
    "MOST_NOTES",
    "MOST_PARAMS",
    "MOST_REPLY_WORDS",
    "MOST_ROOM",
    "MOST_SETUP_BYTES",
    "Block",
    "Carried",
    "Cut",
    "Down",
    "DownTranslation",
    "Endpoint",
    "Fact",
    "FactKind",
    "Heard",
    "Joined",
    "Kind",
    "Line",
    "Message",
    "Parser",
    "Part",
    "Piece",
    "Profile",
    "Raised",
    "Refused",
    "Replies",
    "State",
    "Status",
    "Sysex8",
    "Up",
    "UpTranslation",
    "Usb",
    "exclusive_packets",
    "packet_line",
    "packets_in",
    "packets_of",
    "scale_down",
    "scale_up",
    "sysex8_packets",
    "usb_carried",
    "version",
    "words_in_packet",
]
