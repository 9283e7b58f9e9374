"""The types over a handle of the library."""
from __future__ import annotations

import ctypes
import weakref
from ctypes import byref, c_size_t, c_uint8, c_uint32, c_uint64
from types import TracebackType
from typing import Any, Callable, ClassVar, Generic, List, Optional, Tuple, Type, TypeVar, Union

from . import _interface, _numbers
from ._bulk import MORE, Bulk, translated_down, translated_up
from ._library import Bytes, Words, byte_buffer, bytes_of, call, u8, u32, u64, word_buffer, words_of
from ._results import (
    Block,
    DownTranslation,
    Fact,
    FactKind,
    Heard,
    Item,
    Joined,
    Kind,
    Line,
    Message,
    Part,
    Piece,
    Profile,
    Raised,
    Refused,
    Replies,
    Status,
    UpTranslation,
    must_be_open,
)

_Self = TypeVar("_Self", bound="_Handle")
_MASK = 0xFFFFFFFFFFFFFFFF
# How many places a block call has beside those that one packet or byte may need, how many items, and how many bytes it is passed at once.
_MORE, _ITEMS, _CHUNK = 4096, 256, 4096


def _must(status: int, offset: Optional[int] = None, need: int = 0) -> None:
    if status != _numbers.DONE:
        raise Refused(Status(status), offset, need if status == _numbers.SMALL_BUFFER else None)


def _numbered(number: int) -> Optional[int]:
    """A group or channel, or None for 255, which means that there is none."""
    return number if number < 16 else None


class _Handle:
    """A handle. It is closed by close(), at the end of a `with`, or when it is collected. Only one thread at a time may use it."""

    _name: ClassVar[str]

    def __init__(self, open_by: Callable[..., int], *options: Any) -> None:
        self._raw = _interface.Handle()
        _must(open_by(self._raw, *options))
        self._finalizer = weakref.finalize(self, call(f"{self._name}_close"), self._raw)
        # A handle that is open when the interpreter ends is left to the system, since a forked child mustn't close it.
        self._finalizer.atexit = False

    def close(self) -> None:
        """Closes it. A closed one stays closed, and refuses every call as HANDLE_CLOSED."""
        self._finalizer()

    @property
    def closed(self) -> bool:
        return not self._raw.is_open

    def reset(self) -> None:
        """Makes it as it was just after it was opened. It takes no memory."""
        _must(call(f"{self._name}_reset")(self._raw))

    def __enter__(self: _Self) -> _Self:
        return self

    def __exit__(
        self, kind: Optional[Type[BaseException]], error: Optional[BaseException], trace: Optional[TracebackType]
    ) -> None:
        self.close()

    def __repr__(self) -> str:
        return f"<{type(self).__name__} {'closed' if self.closed else 'open'}>"

    def __reduce__(self) -> Any:
        raise TypeError(f"a {type(self).__name__} can't be copied or pickled")


def _begun(by: Callable[..., int], raw: _interface.Handle, *which: int) -> Optional[int]:
    offset = c_uint64()
    status = by(raw, *which, byref(offset))
    if status == _numbers.NOTHING:
        return None
    _must(status)
    return offset.value


class _Taker(_Handle, Generic[Item]):
    """A handle that takes packets or bytes, with a buffer of its own that is large enough for each."""

    _item_type: ClassVar[Any]
    _single: ClassVar[Callable[..., int]]
    _block: ClassVar[Callable[..., int]]
    _buffer: Any

    def _with_buffer(self, buffer: Any) -> None:
        self._buffer = buffer
        self._view = memoryview(buffer)
        self._items = (self._item_type * _ITEMS)()

    def _data(self, start: int, end: int) -> bytes:
        return self._view[start:end].tobytes()

    def _item(self, item: Any, start: int) -> Item:
        """The result for an item of C, whose part of the buffer begins at start."""
        raise NotImplementedError

    def _taken_once(self, inputs: Tuple[Any, ...], offset: int) -> Item:
        item = self._item_type()
        _must(self._single(self._raw, *inputs, offset, self._buffer, len(self._buffer), byref(item)), offset, item.need)
        return self._item(item, 0)

    def _taken(self, pass_on: Callable[[int], Tuple[Any, int]], count: int, offset: int, step: int) -> Block[Item]:
        """Takes all of the input, up to a refusal. pass_on: from a place in the input, what C is passed next, and its size. step: what each
        word or byte adds to the offset."""
        items: List[Item] = []
        taken, block = 0, _interface.Block()
        while True:
            rest, size = pass_on(taken)
            status = self._block(
                self._raw,
                rest,
                size,
                offset + step * taken & _MASK,
                self._buffer,
                len(self._buffer),
                self._items,
                _ITEMS,
                byref(block),
            )
            must_be_open(status)
            start = 0
            for item in self._items[: block.items]:
                items.append(self._item(item, start))
                start += item.written
            taken += block.taken
            goes_on = status == _numbers.SMALL_BUFFER or status == _numbers.DONE and taken < count
            if not (goes_on and block.taken):
                break
        error = None
        if status != _numbers.DONE:
            error = Refused(Status(status), offset + step * (taken - block.refused) & _MASK)
        return Block(items, taken, block.refused, error)


class _OfPackets(_Taker[Item]):
    """It takes packets: lists of words, or better array("I"), which isn't copied."""

    def packet(self, words: Words, offset: int = 0) -> Item:
        """Takes one packet. offset: any number, such as the frame at which it is due; it comes back in lines. Raises Refused if it is
        refused."""
        return self._taken_once(words_of(words), u64("offset", offset))

    def packets(self, words: Words, offset: int = 0) -> Block[Item]:
        """Takes packets that follow each other, up to the first that is refused. offset is that of the first; each word adds 4.

        To go on after a refusal, call it again with the words from `taken` on."""
        held, count = words_of(words)

        def pass_on(taken: int) -> Tuple[Any, int]:
            if held is None:
                return None, 0
            return (c_uint32 * (count - taken)).from_buffer(held, 4 * taken), count - taken

        return self._taken(pass_on, count, u64("offset", offset), 4)


class _OfBytes(_Taker[Item]):
    """It takes a MIDI 1.0 stream."""

    _end: ClassVar[Callable[..., int]]
    _group: Optional[int]

    def byte(self, byte: int, offset: int = 0) -> Item:
        """Takes one byte, 0 to 255. offset: any number; it comes back in lines. Raises Refused if the byte is refused."""
        return self._taken_once((u8("byte", byte),), u64("offset", offset))

    def bytes(self, data: Bytes, offset: int = 0) -> Block[Item]:
        """Takes bytes that follow each other, up to the first that is refused. offset is that of the first; each byte adds 1. The block
        has an item for each byte that completes something or has a line.

        To go on after a refusal, call it again with the bytes from `taken` on."""
        held = bytes_of(data)

        def pass_on(taken: int) -> Tuple[Any, int]:
            part = held[taken : taken + _CHUNK]
            return part, len(part)

        return self._taken(pass_on, len(held), u64("offset", offset), 1)

    def end(self) -> Optional[Line]:
        """The line of what is open at the end of the stream, or None."""
        line = _interface.Line()
        status = self._end(self._raw, byref(line))
        if status == _numbers.NOTHING:
            return None
        _must(status)
        return Line(line.offset, self._group, Kind(line.kind))

    def _lines(self, outcome: _interface.Outcome) -> Tuple[Line, ...]:
        if not outcome.first.kind:
            return ()
        return tuple(Line(it.offset, self._group, Kind(it.kind)) for it in (outcome.first, outcome.second) if it.kind)


class Down(_OfPackets[Piece]):
    """Translates packets to MIDI 1.0 bytes (M2-104-UM, default translation).

    room: the most bytes of an exclusive, 6 to 1,048,576; each of the sixteen groups has that much memory. compact: omit what the receiver
    of a lane already knows. paired: controllers n and n + 32 are one controller of fourteen bits."""

    _name, _item_type = "down", _interface.Piece
    _single, _block = call("down_packet"), call("down_packets")

    def __init__(self, room: int = 1024, *, compact: bool = False, paired: bool = False) -> None:
        flags = (_numbers.COMPACT if compact else 0) | (_numbers.PAIRED if paired else 0)
        super().__init__(call("down_open"), u32("room", room), flags)
        self._room = room
        self._bulk: Optional[Bulk] = None
        self._with_buffer(byte_buffer(call("down_size")(room) + _MORE))

    def translate(self, words: Words, offset: int = 0) -> DownTranslation:
        """Translates all packets of an array, and goes on after each refusal. offset is that of the first; each word adds 4. It makes an
        object for each line and each refusal, but none for a packet, so use it for many packets: array("I") isn't copied."""
        if self._bulk is None:
            self._bulk = Bulk(_interface.Piece, byte_buffer(call("down_size")(self._room) + MORE))
        return translated_down(self._raw, self._bulk, words, u64("offset", offset))

    def begun(self, group: int) -> Optional[int]:
        """The offset at which the exclusive began that a group has open, or None."""
        return _begun(call("down_begun"), self._raw, u8("group", group))

    def _item(self, item: _interface.Piece, start: int) -> Piece:
        line = Line(item.offset, _numbered(item.group), Kind(item.kind)) if item.kind else None
        return Piece(self._data(start, start + item.written), item.lane, line)


class Up(_OfBytes[Raised]):
    """Translates one MIDI 1.0 stream to the packets of a group (M2-104-UM, translation from MIDI 1.0).

    group: 0 to 15. room: the most bytes of an exclusive, 6 to 1,048,576. paired: as for Down."""

    _name, _item_type = "up", _interface.Outcome
    _single, _block, _end = call("up_byte"), call("up_bytes"), call("up_end")

    def __init__(self, group: int = 0, room: int = 1024, *, paired: bool = False) -> None:
        flags = _numbers.PAIRED if paired else 0
        super().__init__(call("up_open"), u8("group", group), u32("room", room), flags)
        self._group, self._room = group, room
        self._bulk: Optional[Bulk] = None
        self._with_buffer(word_buffer(call("up_size")(room) + _MORE))

    def translate(self, data: Bytes, offset: int = 0) -> UpTranslation:
        """Translates all bytes of an array, and goes on after each refusal. offset is that of the first; each byte adds 1. It makes an object
        for each line and each refusal, but none for a packet, so use it for many bytes."""
        if self._bulk is None:
            self._bulk = Bulk(_interface.Outcome, word_buffer(call("up_size")(self._room) + MORE))
        return translated_up(self._raw, self._bulk, data, u64("offset", offset), self._group)

    def _item(self, item: _interface.Outcome, start: int) -> Raised:
        return Raised(item.offset, self._buffer[start : start + item.written], self._lines(item))


class Parser(_OfBytes[Message]):
    """Cuts a MIDI 1.0 stream into whole messages: each has its status byte, and an exclusive goes from F0 to F7.

    room: the most bytes of an exclusive, 6 to 1,048,576."""

    _name, _item_type = "parser", _interface.Outcome
    _single, _block, _end = call("parser_byte"), call("parser_bytes"), call("parser_end")

    def __init__(self, room: int = 1024) -> None:
        super().__init__(call("parser_open"), u32("room", room))
        self._group = None
        self._with_buffer(byte_buffer(call("parser_size")(room) + _MORE))

    def _item(self, item: _interface.Outcome, start: int) -> Message:
        return Message(item.offset, self._data(start, start + item.written), self._lines(item))


class Usb(_OfBytes[Message]):
    """Packs one MIDI 1.0 stream into USB-MIDI 1.0 events of four bytes. usb_carried is the other way.

    cable: 0 to 15. room: the most bytes of an exclusive, 6 to 1,048,576."""

    _name, _item_type = "usb", _interface.Outcome
    _single, _block, _end = call("usb_byte"), call("usb_bytes"), call("usb_end")

    def __init__(self, cable: int = 0, room: int = 1024) -> None:
        super().__init__(call("usb_open"), u8("cable", cable), u32("room", room))
        self._group = cable
        self._with_buffer(byte_buffer(call("usb_size")(room) + _MORE))

    def _item(self, item: _interface.Outcome, start: int) -> Message:
        return Message(item.offset, self._data(start, start + item.written), self._lines(item))


class Endpoint(_OfPackets[Replies]):
    """Answers a peer's stream messages (M2-104-UM) and MIDI-CI messages (M2-101-UM).

    setup: its text, in TOML (docs/setup.md). room: the most bytes of an exclusive, 6 to 1,048,576."""

    _name, _item_type = "endpoint", _interface.Replies
    _single, _block = call("endpoint_packet"), call("endpoint_packets")

    def __init__(self, setup: Union[str, bytes], room: int = 1024) -> None:
        text, rule = setup.encode() if isinstance(setup, str) else bytes_of(setup), c_uint8()
        try:
            super().__init__(call("endpoint_open"), text, len(text), u32("room", room), byref(rule))
        except Refused as refused:
            if refused.status == Status.SETUP_RULE:
                raise Refused(refused.status, rule=rule.value) from None
            raise
        self._with_buffer(word_buffer(_numbers.MOST_REPLY_WORDS + _MORE))

    @property
    def protocol(self) -> int:
        """The protocol in force: 1 for MIDI 1.0, 2 for MIDI 2.0."""
        protocol = c_uint8()
        _must(call("endpoint_protocol")(self._raw, byref(protocol)))
        return protocol.value

    def muid(self, block: int) -> Optional[int]:
        """The MUID in force of a function block, counted from 0. None: the block has no MIDI-CI or has used up its MUIDs, or there is no
        such block."""
        muid = c_uint32()
        status = call("endpoint_muid")(self._raw, u8("block", block), byref(muid))
        if status == _numbers.NOTHING:
            return None
        _must(status)
        return muid.value

    def profile(self, which: int) -> Optional[Profile]:
        """A profile, counted from 0 in the order of the setup, or None."""
        found = _interface.Profile()
        status = call("endpoint_profile")(self._raw, u64("profile", which), byref(found))
        if status == _numbers.NOTHING:
            return None
        _must(status)
        return Profile(found.block, _numbered(found.group), _numbered(found.channel), bytes(found.id), found.is_on)

    def profiles(self) -> List[Profile]:
        """The profiles, in the order of the setup."""
        found: List[Profile] = []
        while True:
            profile = self.profile(len(found))
            if profile is None:
                return found
            found.append(profile)

    def begun(self, group: int) -> Optional[int]:
        """The offset at which the exclusive began that a group has open, or None."""
        return _begun(call("endpoint_begun"), self._raw, u8("group", group))

    def _item(self, item: _interface.Replies, start: int) -> Replies:
        group = _numbered(item.group)
        line = Line(item.offset, group, Kind(item.kind)) if item.kind else None
        heard = Heard(item.heard) if item.heard else None
        return Replies(self._buffer[start : start + item.written], heard, group, line)


class Sysex8(_OfPackets[Part]):
    """Joins the 8-bit exclusives (SysEx8) of many streams (M2-104-UM). sysex8_packets is the other way.

    streams: how many exclusives may be open at once, 1 to 64. room: the most bytes of one, 13 to 1,048,576."""

    _name, _item_type = "sysex8", _interface.Part
    _single, _block = call("sysex8_packet"), call("sysex8_packets")

    def __init__(self, streams: int = 16, room: int = 1024) -> None:
        super().__init__(call("sysex8_open"), u8("streams", streams), u32("room", room))
        self._with_buffer(byte_buffer(room + _MORE))

    def begun(self, group: int, stream: int) -> Optional[int]:
        """The offset at which the exclusive began that a stream of a group has open, or None."""
        return _begun(call("sysex8_begun"), self._raw, u8("group", group), u8("stream", stream))

    def _item(self, item: _interface.Part, start: int) -> Part:
        answer = Joined(item.answer)
        is_cut = answer in (Joined.RESTARTED, Joined.RESTARTED_WHOLE)
        data = self._data(start, start + item.written)
        return Part(data, answer, item.group, item.stream, item.cut_at if is_cut else None)


class State(_Handle):
    """Keeps what the messages so far have set in a receiver.

    room: the most bytes of an exclusive, 6 to 1,048,576. notes: the most notes on, notes off and mode messages of each channel. They are a
    history: a note off removes nothing, and once the list is full each further one is refused (STATE_FULL), until reset(). So pass as many
    as a recording has. params: the most parameters of each kind and channel. of_bytes: it takes the bytes of one MIDI 1.0 stream, whose
    facts are of group 0, instead of packets."""

    _name = "state"

    def __init__(self, room: int = 1024, notes: int = 128, params: int = 128, *, of_bytes: bool = False) -> None:
        flags = _numbers.OF_BYTES if of_bytes else 0
        super().__init__(call("state_open"), u32("room", room), u32("notes", notes), u32("params", params), flags)

    def packet(self, words: Words) -> None:
        """Takes one packet. After STATE_FULL nothing has changed."""
        _must(call("state_packet")(self._raw, *words_of(words)))

    def packets(self, words: Words) -> Block[None]:
        """Takes packets that follow each other, up to the first that is refused. The block has no items; the offset of its error is 0 for
        the first of these words, and each word adds 4."""
        return self._taken("state_packets", *words_of(words), 4)

    def byte(self, byte: int) -> None:
        """Takes one byte. After STATE_FULL it is taken, but the message that it completes isn't kept."""
        _must(call("state_byte")(self._raw, u8("byte", byte)))

    def bytes(self, data: Bytes) -> Block[None]:
        """Takes bytes that follow each other, up to the first that is refused. The block has no items; the offset of its error is 0 for
        the first of these bytes."""
        held = bytes_of(data)
        return self._taken("state_bytes", held, len(held), 1)

    def facts(self, group: int, channel: Optional[int] = None) -> List[Fact]:
        """The facts of a channel of a group, in the order of `larboardyuzu show --state`; without a channel the counts of the group's
        system messages."""
        if channel == _numbers.NO_CHANNEL:
            raise Refused(Status.BAD_CHANNEL)
        number = _numbers.NO_CHANNEL if channel is None else u8("channel", channel)
        written, need, size = c_size_t(), c_size_t(), 16
        while True:
            facts = (_interface.Fact * size)()
            by = call("state_facts")
            status = by(self._raw, u8("group", group), number, facts, size, byref(written), byref(need))
            if status != _numbers.SMALL_BUFFER:
                break
            size = need.value
        _must(status)
        return [_fact(it, channel) for it in facts[: written.value]]

    def _taken(self, name: str, held: Any, count: int, step: int) -> Block[None]:
        block = _interface.Block()
        status = call(name)(self._raw, held, count, byref(block))
        must_be_open(status)
        error = None
        if status != _numbers.DONE:
            error = Refused(Status(status), step * (block.taken - block.refused))
        return Block([], block.taken, block.refused, error)


def _fact(it: _interface.Fact, channel: Optional[int]) -> Fact:
    kind = FactKind(it.kind)
    is_parameter = kind in (FactKind.REGISTERED, FactKind.ASSIGNABLE)
    bank = (it.bank, it.bank_lsb) if it.has_bank else None
    value = it.value if it.has_value else None
    return Fact(kind, it.group, channel, it.number, bank, it.bank if is_parameter else None, value, it.count, it.is_loose)
