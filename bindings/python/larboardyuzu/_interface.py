"""The structs and prototypes of include/larboardyuzu.h, as ctypes has them. bindings/generate.py makes this file. Nothing is loaded here, so that
bindings/compare.py can compare them with the header: each struct has the name of the header after larboardyuzu_, and each call the types of
its arguments."""
from ctypes import POINTER, Structure, c_bool, c_char_p, c_size_t, c_uint8, c_uint32, c_uint64, c_void_p

U8, U32, U64, SIZE = c_uint8, c_uint32, c_uint64, c_size_t


class Handle(Structure):
    """larboardyuzu_down to larboardyuzu_usb."""

    _fields_ = [("memory", c_void_p), ("is_open", SIZE)]


class Line(Structure):
    _fields_ = [
        ("offset", U64),
        ("kind", U8),
    ]


class Outcome(Structure):
    _fields_ = [
        ("written", SIZE),
        ("need", SIZE),
        ("offset", U64),
        ("first", Line),
        ("second", Line),
    ]


class Block(Structure):
    _fields_ = [
        ("taken", SIZE),
        ("written", SIZE),
        ("items", SIZE),
        ("refused", SIZE),
        ("need", SIZE),
        ("need_items", SIZE),
    ]


class Piece(Structure):
    _fields_ = [
        ("written", SIZE),
        ("need", SIZE),
        ("offset", U64),
        ("lane", U8),
        ("kind", U8),
        ("group", U8),
    ]


class Replies(Structure):
    _fields_ = [
        ("written", SIZE),
        ("need", SIZE),
        ("offset", U64),
        ("heard", U8),
        ("group", U8),
        ("kind", U8),
    ]


class Profile(Structure):
    _fields_ = [
        ("block", U8),
        ("group", U8),
        ("channel", U8),
        ("id", U8 * 5),
        ("is_on", c_bool),
    ]


class Fact(Structure):
    _fields_ = [
        ("count", U64),
        ("value", U32),
        ("kind", U8),
        ("group", U8),
        ("channel", U8),
        ("number", U8),
        ("bank", U8),
        ("bank_lsb", U8),
        ("has_bank", c_bool),
        ("has_value", c_bool),
        ("is_loose", c_bool),
    ]


class Part(Structure):
    _fields_ = [
        ("written", SIZE),
        ("need", SIZE),
        ("cut_at", U64),
        ("answer", U8),
        ("group", U8),
        ("stream", U8),
    ]


class Carried(Structure):
    _fields_ = [
        ("cable", U8),
        ("length", U8),
        ("bytes", U8 * 3),
    ]


HANDLE, BYTES_IN, BYTES_OUT, WORDS = POINTER(Handle), c_char_p, POINTER(U8), POINTER(U32)

# The arguments of each call; the result is a uint32_t, except of those in SIZES and of the calls that close. The bytes of an input are a bytes
# object; every other buffer is an array of ctypes.
PROTOTYPES = {
    "version": (),
    "down_size": (U32,),
    "down_open": (HANDLE, U32, U32),
    "down_packet": (HANDLE, WORDS, SIZE, U64, BYTES_OUT, SIZE, POINTER(Piece)),
    "down_packets": (HANDLE, WORDS, SIZE, U64, BYTES_OUT, SIZE, POINTER(Piece), SIZE, POINTER(Block)),
    "down_begun": (HANDLE, U8, POINTER(U64)),
    "down_reset": (HANDLE,),
    "down_close": (HANDLE,),
    "up_size": (U32,),
    "up_open": (HANDLE, U8, U32, U32),
    "up_byte": (HANDLE, U8, U64, WORDS, SIZE, POINTER(Outcome)),
    "up_bytes": (HANDLE, BYTES_IN, SIZE, U64, WORDS, SIZE, POINTER(Outcome), SIZE, POINTER(Block)),
    "up_end": (HANDLE, POINTER(Line)),
    "up_reset": (HANDLE,),
    "up_close": (HANDLE,),
    "parser_size": (U32,),
    "parser_open": (HANDLE, U32),
    "parser_byte": (HANDLE, U8, U64, BYTES_OUT, SIZE, POINTER(Outcome)),
    "parser_bytes": (HANDLE, BYTES_IN, SIZE, U64, BYTES_OUT, SIZE, POINTER(Outcome), SIZE, POINTER(Block)),
    "parser_end": (HANDLE, POINTER(Line)),
    "parser_reset": (HANDLE,),
    "parser_close": (HANDLE,),
    "endpoint_open": (HANDLE, BYTES_IN, SIZE, U32, BYTES_OUT),
    "endpoint_packet": (HANDLE, WORDS, SIZE, U64, WORDS, SIZE, POINTER(Replies)),
    "endpoint_packets": (HANDLE, WORDS, SIZE, U64, WORDS, SIZE, POINTER(Replies), SIZE, POINTER(Block)),
    "endpoint_protocol": (HANDLE, BYTES_OUT),
    "endpoint_muid": (HANDLE, U8, WORDS),
    "endpoint_profile": (HANDLE, SIZE, POINTER(Profile)),
    "endpoint_begun": (HANDLE, U8, POINTER(U64)),
    "endpoint_reset": (HANDLE,),
    "endpoint_close": (HANDLE,),
    "state_open": (HANDLE, U32, U32, U32, U32),
    "state_packet": (HANDLE, WORDS, SIZE),
    "state_packets": (HANDLE, WORDS, SIZE, POINTER(Block)),
    "state_byte": (HANDLE, U8),
    "state_bytes": (HANDLE, BYTES_IN, SIZE, POINTER(Block)),
    "state_facts": (HANDLE, U8, U8, POINTER(Fact), SIZE, POINTER(SIZE), POINTER(SIZE)),
    "state_reset": (HANDLE,),
    "state_close": (HANDLE,),
    "sysex8_open": (HANDLE, U8, U32),
    "sysex8_packet": (HANDLE, WORDS, SIZE, U64, BYTES_OUT, SIZE, POINTER(Part)),
    "sysex8_packets": (HANDLE, WORDS, SIZE, U64, BYTES_OUT, SIZE, POINTER(Part), SIZE, POINTER(Block)),
    "sysex8_begun": (HANDLE, U8, U8, POINTER(U64)),
    "sysex8_reset": (HANDLE,),
    "sysex8_close": (HANDLE,),
    "sysex8_cut": (U8, U8, BYTES_IN, SIZE, SIZE, WORDS, SIZE),
    "usb_size": (U32,),
    "usb_open": (HANDLE, U8, U32),
    "usb_byte": (HANDLE, U8, U64, BYTES_OUT, SIZE, POINTER(Outcome)),
    "usb_bytes": (HANDLE, BYTES_IN, SIZE, U64, BYTES_OUT, SIZE, POINTER(Outcome), SIZE, POINTER(Block)),
    "usb_end": (HANDLE, POINTER(Line)),
    "usb_reset": (HANDLE,),
    "usb_close": (HANDLE,),
    "usb_carried": (BYTES_IN, SIZE, POINTER(Carried)),
    "status_name": (U32, BYTES_OUT, SIZE, POINTER(SIZE)),
    "kind_name": (U32, BYTES_OUT, SIZE, POINTER(SIZE)),
    "heard_name": (U32, BYTES_OUT, SIZE, POINTER(SIZE)),
    "words_in_packet": (U32,),
    "packets_in": (BYTES_IN, SIZE, U32, WORDS, SIZE, POINTER(Block)),
    "exclusive_packet": (U8, BYTES_IN, SIZE, SIZE, WORDS, SIZE),
    "packet_line": (WORDS, SIZE, U64, BYTES_OUT, SIZE, POINTER(SIZE)),
    "scale_up": (U32, U8, U8, WORDS),
    "scale_down": (U32, U8, U8, WORDS),
}
SIZES = ("down_size", "up_size", "parser_size", "usb_size")
