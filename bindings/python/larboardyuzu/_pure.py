"""Calls without a handle."""
from __future__ import annotations

from array import array
from ctypes import byref, c_size_t, c_uint32
from typing import Callable, Iterator, List, Optional, Tuple

from . import _interface, _numbers
from ._library import Bytes, Words, byte_buffer, bytes_of, call, u8, u32, u64, word_buffer, words_of
from ._results import Carried, Cut, Refused, Status


def _must(status: int) -> None:
    if status != _numbers.DONE:
        raise Refused(Status(status))


def version() -> int:
    """The version of the library: the major number times 65,536, the minor one times 256, and the patch."""
    return call("version")()  # type: ignore[no-any-return]


def words_in_packet(first: int) -> int:
    """How many words the packet has that begins with this one: 1 to 4 (M2-104-UM, message types)."""
    return call("words_in_packet")(u32("first", first))  # type: ignore[no-any-return]


def packets_of(words: Words) -> Iterator[List[int]]:
    """The packets of words that follow each other. The last one may have fewer words than its type has."""
    held, at = list(words), 0
    while at < len(held):
        count = words_in_packet(held[at])
        yield held[at : at + count]
        at += count


def packets_in(data: Bytes, *, little_endian: bool = False) -> Cut:
    """Cuts bytes into the words of whole packets. The bytes of a last packet that isn't whole aren't taken: pass them again with those that
    follow. The bytes of a word come highest first, or if little_endian lowest first."""
    held = bytes_of(data)
    words = array("I", bytes(4 * (len(held) // 4)))
    block = _interface.Block()
    flags = _numbers.LITTLE_ENDIAN if little_endian else 0
    status = call("packets_in")(held, len(held), flags, *words_of(words), byref(block))
    # If the last packet isn't whole, the array may have no room for it either.
    if status not in (_numbers.DONE, _numbers.BAD_SIZE, _numbers.SMALL_BUFFER):
        raise Refused(Status(status))
    return Cut(words[: block.written], block.taken)


def _all_packets(by: Callable[..., int], which: Tuple[int, ...], payload: Bytes, size: int) -> List[List[int]]:
    held, words, found = bytes_of(payload), word_buffer(size), []  # type: ignore[var-annotated]
    while True:
        status = by(*which, held, len(held), len(found), words, size)
        if status == _numbers.NOTHING:
            return found
        _must(status)
        found.append(words[:])


def exclusive_packets(group: int, payload: Bytes) -> List[List[int]]:
    """The packets of a 7-bit exclusive with these bytes between F0 and F7 (M2-104-UM), each of two words. Raises Refused as BAD_GROUP if
    the group isn't 0 to 15, and as HIGH_BIT if a byte is 128 or more."""
    return _all_packets(call("exclusive_packet"), (u8("group", group),), payload, 2)


def sysex8_packets(group: int, stream: int, payload: Bytes) -> List[List[int]]:
    """The packets of an 8-bit exclusive of a stream with these bytes (M2-104-UM), each of four words. Raises Refused as BAD_GROUP if the
    group isn't 0 to 15. stream: the stream id, 0 to 255."""
    return _all_packets(call("sysex8_cut"), (u8("group", group), u8("stream", stream)), payload, 4)


def usb_carried(event: Bytes) -> Optional[Carried]:
    """What a USB-MIDI 1.0 event carries, or None if its code is reserved. Raises Refused as BAD_SIZE unless it has four bytes."""
    held, carried = bytes_of(event), _interface.Carried()
    status = call("usb_carried")(held, len(held), byref(carried))
    if status == _numbers.NOTHING:
        return None
    _must(status)
    return Carried(carried.cable, bytes(carried.bytes[: carried.length]))


def packet_line(words: Words, offset: int = 0) -> str:
    """The line of `larboardyuzu show` for a packet, with its line feed (docs/output.md). Raises Refused as BAD_WORD_COUNT, BAD_COUNT
    or HIGH_BIT."""
    text, length = byte_buffer(_numbers.MOST_LINE), c_size_t()
    _must(call("packet_line")(*words_of(words), u64("offset", offset), text, len(text), byref(length)))
    return bytes(text[: length.value]).decode("ascii")


def scale_up(value: int, narrow: int, wide: int) -> int:
    """Scales a value of 7 bits to 16 or 32, or of 14 bits to 32 (M2-115-U, min-centre-max scaling). narrow, wide: widths in bits.
    Raises Refused as BAD_BITS for other widths, and as BAD_VALUE if the value has more bits than narrow."""
    scaled = c_uint32()
    _must(call("scale_up")(u32("value", value), u8("narrow", narrow), u8("wide", wide), byref(scaled)))
    return scaled.value


def scale_down(value: int, wide: int, narrow: int) -> int:
    """Takes the upper 7 of 16 bits, or the upper 7 or 14 of 32 (M2-115-U, downscaling). Raises Refused as scale_up does."""
    scaled = c_uint32()
    _must(call("scale_down")(u32("value", value), u8("wide", wide), u8("narrow", narrow), byref(scaled)))
    return scaled.value
