"""Translates whole arrays, without an object for each packet or byte: the results of a block call stay in buffers of C, and what is made of
them is made of all at once."""
from __future__ import annotations

import ctypes
from array import array
from ctypes import byref, c_size_t, c_uint32
from typing import Any, Callable, List, Optional

from . import _interface, _numbers
from ._library import Bytes, Words, byte_buffer, bytes_of, call, split_of_c, words_of
from ._results import DownTranslation, Kind, Line, Refused, Status, UpTranslation, must_be_open

_MASK = 0xFFFFFFFFFFFFFFFF
# How many places a buffer has beside those that one packet or byte may need, how many items a block has, and how many bytes C is passed at once.
MORE, _ITEMS, _CHUNK = 65536, 16384, 65536
_LANES = 16


class Bulk:
    """The buffers of the calls over arrays. A handle makes them at the first such call."""

    def __init__(self, item_type: Any, buffer: Any) -> None:
        self._item_size = ctypes.sizeof(item_type)
        raw = byte_buffer(_ITEMS * self._item_size)
        self.items = (item_type * _ITEMS).from_buffer(raw)
        self.columns = memoryview(raw).cast("B")
        self.buffer = buffer
        self.view = memoryview(buffer).cast("B")

    def column(self, offset: int, count: int) -> bytes:
        """The byte at this offset of each item."""
        return self.columns[offset : count * self._item_size : self._item_size].tobytes()

    def sizes(self, offset: int, count: int) -> List[int]:
        """The size_t at this offset of each item."""
        width = ctypes.sizeof(c_size_t)
        return self.columns.cast("N")[offset // width : count * self._item_size // width : self._item_size // width].tolist()


class Lanes:
    """The bytes of the sixteen lanes so far."""

    def __init__(self, bulk: Bulk) -> None:
        self._bulk, self._room = bulk, len(bulk.buffer)
        self._found = [bytearray() for _ in range(_LANES)]
        self._sizes = (c_size_t * _LANES)()
        self._split: Any = None

    def add(self, count: int, written: int) -> bool:
        """Adds the bytes of a block, by its pieces. Returns False if none of them has a line."""
        if split_of_c is not None:
            return self._add_by(split_of_c, count)
        lanes = self._bulk.column(_interface.Piece.lane.offset, count)
        if count and lanes.count(lanes[0]) == count:
            self._found[lanes[0]] += self._bulk.view[:written]
            return True
        start = 0
        for lane, size in zip(lanes, self._bulk.sizes(_interface.Piece.written.offset, count)):
            self._found[lane] += self._bulk.view[start : start + size]
            start += size
        return True

    def _add_by(self, split: Callable[..., int], count: int) -> bool:
        if self._split is None:
            self._split = byte_buffer(_LANES * self._room)
            self._split_view = memoryview(self._split).cast("B")
        lines = split(self._bulk.buffer, self._bulk.items, count, self._split, self._room, self._sizes)
        for lane, size in enumerate(self._sizes):
            if size:
                self._found[lane] += self._split_view[lane * self._room : lane * self._room + size]
        return lines > 0

    def all(self) -> List[bytes]:
        return [bytes(it) for it in self._found]


def _with_lines(bulk: Bulk, offset: int, count: int) -> List[Any]:
    """The items whose byte at this offset, the kind of a line, isn't 0."""
    kinds = bulk.column(offset, count)
    if kinds.count(0) == count:
        return []
    return [bulk.items[at] for at, kind in enumerate(kinds) if kind]


def translated_down(raw: _interface.Handle, bulk: Bulk, words: Words, offset: int) -> DownTranslation:
    """What Down.translate returns."""
    held, count = words_of(words)
    by, block, lanes = call("down_packets"), _interface.Block(), Lanes(bulk)
    lines: List[Line] = []
    refused: List[Refused] = []
    at, status = 0, _numbers.SMALL_BUFFER
    while status != _numbers.DONE:
        rest = c_uint32.from_buffer(held, 4 * at) if held is not None and at < count else None
        place = offset + 4 * at & _MASK
        status = by(raw, rest, count - at, place, bulk.buffer, len(bulk.buffer), bulk.items, _ITEMS, byref(block))
        must_be_open(status)
        if lanes.add(block.items, block.written):
            for it in _with_lines(bulk, _interface.Piece.kind.offset, block.items):
                lines.append(Line(it.offset, it.group if it.group < 16 else None, Kind(it.kind)))
        at += block.taken
        if block.refused:
            refused.append(Refused(Status(status), offset + 4 * (at - block.refused) & _MASK))
        if not block.taken:
            break
    return DownTranslation(lanes.all(), lines, refused, at)


def translated_up(raw: _interface.Handle, bulk: Bulk, data: Bytes, offset: int, group: Optional[int]) -> UpTranslation:
    """What Up.translate returns."""
    held = bytes_of(data)
    by, block, words = call("up_bytes"), _interface.Block(), array("I")
    lines: List[Line] = []
    refused: List[Refused] = []
    kind_at = _interface.Outcome.first.offset + _interface.Line.kind.offset
    at = 0
    while True:
        part, place = held[at : at + _CHUNK], offset + at & _MASK
        status = by(raw, part, len(part), place, bulk.buffer, len(bulk.buffer), bulk.items, _ITEMS, byref(block))
        must_be_open(status)
        words.frombytes(bulk.view[: 4 * block.written])
        for it in _with_lines(bulk, kind_at, block.items):
            lines.extend(Line(line.offset, group, Kind(line.kind)) for line in (it.first, it.second) if line.kind)
        at += block.taken
        if block.refused:
            refused.append(Refused(Status(status), offset + at - block.refused & _MASK))
        if at == len(held):
            return UpTranslation(words, lines, refused)
