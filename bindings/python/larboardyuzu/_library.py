"""Loads the library and its calls, and converts numbers of Python to those of C: one that doesn't fit raises OverflowError."""
from __future__ import annotations

import ctypes
import functools
import operator
import os
from array import array
from ctypes import c_uint8, c_uint32
from typing import Any, Callable, Iterable, Optional, Tuple, Union

from . import _interface, _numbers

_HERE = os.path.dirname(os.path.abspath(__file__))
SONAME = f"liblarboardyuzu.so.{_numbers.VERSION >> 16}.{_numbers.VERSION >> 8 & 0xFF}"

# Words are any iterable of numbers; array("I") and other arrays of 32-bit words that can be written aren't copied. Bytes are bytes-like, or an iterable of numbers.
Words = Iterable[int]
Bytes = Union[bytes, bytearray, memoryview, Iterable[int]]


def _beside(name: str) -> Optional[str]:
    """The file with this name in the folder of the package, if it is there: a wheel can have the library and _lanes.so."""
    path = os.path.join(_HERE, name)
    return path if os.path.isfile(path) else None


def _loaded() -> ctypes.PyDLL:
    name = os.environ.get("LARBOARDYUZU_LIBRARY") or _beside("liblarboardyuzu.so") or SONAME
    try:
        # With PyDLL a call keeps the lock of the interpreter, if it has one, so that two threads can't be in one handle.
        return ctypes.PyDLL(name)
    except OSError as error:
        raise ImportError(f"{error}: install the library, or name its file in LARBOARDYUZU_LIBRARY") from error


_LIBRARY = _loaded()


@functools.lru_cache(maxsize=None)
def call(name: str) -> Callable[..., Any]:
    """The call with this name after larboardyuzu_. Raises ImportError if the library doesn't have it."""
    try:
        found = getattr(_LIBRARY, f"larboardyuzu_{name}")
    except AttributeError as error:
        raise ImportError(f"{error}: the library has another version than {_numbers.VERSION:06x}") from error
    found.argtypes = _interface.PROTOTYPES[name]
    found.restype = None if name.endswith("_close") else ctypes.c_size_t if name in _interface.SIZES else c_uint32
    return found  # type: ignore[no-any-return]


_version = call("version")
if _version() >> 8 != _numbers.VERSION >> 8:
    raise ImportError(f"the library has version {_version():06x}, and this package is for {_numbers.VERSION:06x}")


def _split_of_c() -> Optional[Callable[..., int]]:
    """larboardyuzu_split of _lanes.c, if it is compiled."""
    path = _beside("_lanes.so")
    if path is None:
        return None
    found = ctypes.PyDLL(path).larboardyuzu_split
    found.argtypes = (
        ctypes.POINTER(c_uint8),
        ctypes.POINTER(_interface.Piece),
        ctypes.c_size_t,
        ctypes.POINTER(c_uint8),
        ctypes.c_size_t,
        ctypes.POINTER(ctypes.c_size_t),
    )
    found.restype = ctypes.c_size_t
    return found


split_of_c = _split_of_c()


def _number(what: str, value: int, most: int) -> int:
    value = operator.index(value)
    if not 0 <= value <= most:
        raise OverflowError(f"{what} is {value}, and has to be 0 to {most}")
    return value


def u8(what: str, value: int) -> int:
    return _number(what, value, 0xFF)


def u32(what: str, value: int) -> int:
    return _number(what, value, 0xFFFFFFFF)


def u64(what: str, value: int) -> int:
    return _number(what, value, 0xFFFFFFFFFFFFFFFF)


def _view_of(words: Words) -> Optional[memoryview]:
    """A memoryview of an array of 32-bit words, such as array("I"), or None of anything else."""
    try:
        view = memoryview(words)  # type: ignore[arg-type]
    except TypeError:
        return None
    if view.format == "I" and view.ndim == 1 and view.contiguous:
        return view
    if isinstance(words, memoryview):
        raise TypeError('a memoryview of words has the format "I", one dimension, and its items follow each other')
    return None


def words_of(words: Words) -> Tuple[Optional["ctypes.Array[c_uint32]"], int]:
    """The words as an array of C, and their number. An array that can be written is lent, not copied, so it can't be resized meanwhile."""
    if isinstance(words, (bytes, bytearray, str)):
        raise TypeError("words are numbers of 32 bits: packets_in cuts bytes into words")
    held: Union[memoryview, "array[int]"]
    view = _view_of(words)
    if view is not None:
        held, count = view, len(view)
        if view.readonly:
            held = array("I")
            held.frombytes(view.cast("B"))
    else:
        try:
            held = array("I", list(words))
        except OverflowError as error:
            raise OverflowError(f"a word isn't 0 to 4294967295: {error}") from error
        count = len(held)
    return (c_uint32 * count).from_buffer(held) if count else None, count


def bytes_of(data: Bytes) -> bytes:
    """The bytes of a bytes-like object, or of numbers in order. Raises TypeError if the items aren't unsigned bytes, as of array("I")."""
    if isinstance(data, bytes):
        return data
    if isinstance(data, (int, str)):
        raise TypeError(f"bytes are wanted, and this is {type(data).__name__}")
    try:
        view = memoryview(data)  # type: ignore[arg-type]
    except TypeError:
        return bytes(data)
    if view.format.lstrip("@=<>!") != "B":
        raise TypeError(f"bytes are wanted, and this has items of another type ({view.format})")
    return view.tobytes()


def byte_buffer(size: int) -> "ctypes.Array[c_uint8]":
    return (c_uint8 * size)()


def word_buffer(size: int) -> "ctypes.Array[c_uint32]":
    return (c_uint32 * size)()
