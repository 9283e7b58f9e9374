"""Calls without a handle, numbers that don't fit, and what the package promises of itself. The expected values come from M2-104-UM and
M2-115-U."""
import copy
import ctypes
import os
import pickle
import subprocess
import sys
import typing
import unittest
from array import array

import larboardyuzu
from larboardyuzu import (
    Down,
    Endpoint,
    Heard,
    Kind,
    Parser,
    Refused,
    State,
    Status,
    Sysex8,
    Up,
    Usb,
    exclusive_packets,
    packet_line,
    packets_in,
    packets_of,
    scale_down,
    scale_up,
    sysex8_packets,
    usb_carried,
    version,
    words_in_packet,
)
from larboardyuzu import _interface, _library, _numbers


class PureTest(unittest.TestCase):
    def refused(self, call, status):
        with self.assertRaises(Refused) as raised:
            call()
        self.assertEqual(raised.exception.status, status)

    def test_words(self):
        self.assertEqual([words_in_packet(it << 28) for it in range(16)], [1, 1, 1, 2, 2, 4, 1, 1, 2, 2, 2, 3, 3, 4, 4, 4])
        self.assertEqual([*packets_of([0x20903C64, 0x40903C00, 1])], [[0x20903C64], [0x40903C00, 1]])

    def test_packets_in(self):
        data = bytes.fromhex("40903C00 C9240000 10F80000 4090")
        self.assertEqual(packets_in(data), (array("I", [0x40903C00, 0xC9240000, 0x10F80000]), 12))
        self.assertEqual(packets_in(data[:10]), (array("I", [0x40903C00, 0xC9240000]), 8))
        self.assertEqual(packets_in(data[:7]), (array("I"), 0))
        self.assertEqual(packets_in(b""), (array("I"), 0))
        self.assertEqual(packets_in(b"\x64\x3c\x90\x20", little_endian=True), (array("I", [0x20903C64]), 4))
        with Down() as down:
            self.assertEqual(down.packets(packets_in(data)[0]).items[0].data, b"\x90\x3c\x64")

    def test_exclusives(self):
        self.assertEqual(exclusive_packets(0, bytes(range(1, 8))), [[0x30160102, 0x03040506], [0x30310700, 0]])
        self.assertEqual(exclusive_packets(2, []), [[0x32000000, 0]])
        self.refused(lambda: exclusive_packets(16, b""), Status.BAD_GROUP)
        self.refused(lambda: exclusive_packets(0, bytes(12) + b"\x80"), Status.HIGH_BIT)
        self.assertEqual(sysex8_packets(0, 1, b"\xa0\xa1"), [[0x500301A0, 0xA1000000, 0, 0]])

    def test_line(self):
        self.assertEqual(packet_line([0x10F80000], 8), "8 10F80000 system group=0 status=F8\n")
        self.refused(lambda: packet_line([0x20903C80]), Status.HIGH_BIT)

    def test_scaling(self):
        for narrow, wide in [(7, 16), (7, 32), (14, 32)]:
            for value, scaled in [(0, 0), (1 << narrow - 1, 1 << wide - 1), ((1 << narrow) - 1, (1 << wide) - 1)]:
                self.assertEqual(scale_up(value, narrow, wide), scaled)
                self.assertEqual(scale_down(scaled, wide, narrow), value)
        self.assertEqual((scale_up(100, 7, 16), scale_down(51492, 16, 7)), (51492, 100))
        self.refused(lambda: scale_up(0, 8, 16), Status.BAD_BITS)
        self.refused(lambda: scale_up(128, 7, 16), Status.BAD_VALUE)


class NumbersTest(unittest.TestCase):
    """No number is cut to its lower bits."""

    def test_scalars(self):
        handles = [Down(), Up(), Parser(), State(of_bytes=True), State(), Sysex8()]
        down, up, parser, of_bytes, of_packets, sysex8 = handles
        for call in [
            lambda: Down(2**32 + 1024),
            lambda: Up(256),
            lambda: Up(0, -1),
            lambda: Usb(cable=-1),
            lambda: Sysex8(257),
            lambda: State(64, 2**32, 0),
            lambda: down.packet([0x140903C00, 0]),
            lambda: down.packet([-1]),
            lambda: down.packet([0x20903C64], 2**64),
            lambda: down.packets([0x20903C64, 2**32]),
            lambda: down.begun(256),
            lambda: up.byte(0x190),
            lambda: up.byte(-1),
            lambda: up.bytes(b"\x90", -1),
            lambda: parser.byte(256),
            lambda: of_bytes.byte(256),
            lambda: of_packets.packet([2**32]),
            lambda: of_packets.facts(256),
            lambda: of_packets.facts(0, 256),
            lambda: sysex8.begun(0, 256),
            lambda: exclusive_packets(256, b""),
            lambda: sysex8_packets(0, 256, b""),
            lambda: words_in_packet(2**32),
            lambda: scale_up(2**32, 7, 16),
            lambda: scale_up(0, 7 + 256, 16),
            lambda: packet_line([2**32]),
        ]:
            self.assertRaises(OverflowError, call)
        for handle in handles:
            handle.close()

    def test_sequences(self):
        with Up() as up, Parser() as parser, State(of_bytes=True) as state, Usb() as usb:
            for call in [
                lambda: up.bytes([0x90, 300]),
                lambda: parser.bytes([-1]),
                lambda: state.bytes([256]),
                lambda: usb.bytes([256]),
                lambda: exclusive_packets(0, [300]),
                lambda: sysex8_packets(0, 0, [300]),
                lambda: usb_carried([0x13F, 0xF8, 0, 0]),
                lambda: packets_in([256] * 4),
            ]:
                self.assertRaises(ValueError, call)

    def test_types(self):
        with Down() as down, Up() as up:
            for call in [
                lambda: Down(64.0),
                lambda: Down("64"),
                lambda: down.packet([1.5]),
                lambda: down.packet(b"\x20\x90\x3c\x64"),
                lambda: down.packet(memoryview(b"\x20\x90\x3c\x64")),
                lambda: down.packet(memoryview(array("I", [0x20903C64] * 4))[::2]),
                lambda: down.packet(None),
                lambda: up.byte("a"),
                lambda: up.bytes("abc"),
                lambda: up.bytes(5),
                lambda: up.bytes(array("I", [0x90])),
                lambda: up.bytes(array("b", [0x10])),
                lambda: up.bytes(None),
                lambda: exclusive_packets(0, 5),
            ]:
                self.assertRaises(TypeError, call)

    def test_bytes(self):
        """All that has bytes, or is numbers in order."""
        data = b"\x90\x3c\x64"
        with Parser() as parser:
            for given in (data, bytearray(data), memoryview(data), array("B", data), list(data), iter(data), memoryview(data * 2)[::2]):
                parser.reset()
                self.assertEqual(parser.bytes(given).taken, 3)

    def test_offsets_wrap(self):
        with Down() as down:
            block = down.packets([0x00000000] * 3, 2**64 - 4)
        self.assertEqual([it.line.offset for it in block.items], [2**64 - 4, 0, 4])


class PackageTest(unittest.TestCase):
    def test_all(self):
        for name in larboardyuzu.__all__:
            self.assertTrue(hasattr(larboardyuzu, name), name)
        public = {name for name, it in vars(larboardyuzu).items() if not name.startswith("_") and not isinstance(it, type(os))}
        self.assertEqual(public, set(larboardyuzu.__all__))

    def test_hints(self):
        """The hints can be resolved, and there are some for each public call."""
        calls = [it for it in map(vars(larboardyuzu).get, larboardyuzu.__all__) if callable(it) and not isinstance(it, type)]
        for it in (Down, Up, Parser, Endpoint, State, Sysex8, Usb):
            calls += [getattr(it, name) for name in dir(it) if not name.startswith("_") and callable(getattr(it, name))]
        self.assertGreater(len(calls), 40)
        for call in calls:
            self.assertIn("return", typing.get_type_hints(call), call)

    def test_names(self):
        """The names of the enums are those of the library."""

        def name(call, number):
            text, length = (ctypes.c_uint8 * 32)(), ctypes.c_size_t()
            self.assertEqual(_library.call(call)(number, text, 32, ctypes.byref(length)), 0)
            return bytes(text[: length.value]).decode()

        for call, enum in [("status_name", Status), ("kind_name", Kind), ("heard_name", Heard)]:
            for it in enum:
                self.assertEqual(name(call, it), it.name)
        # the words of the tables in docs/output.md
        self.assertEqual([it.word for it in (Kind.DATA8, Kind.IGNORED_DATA_ENTRY)], ["data8", "ignored-data-entry"])
        self.assertEqual([it.word for it in (Heard.NAK, Heard.NO_ANSWER)], ["nak", "no-answer"])

    def test_sizes(self):
        """The sizes of the structs are part of the binary interface."""
        sizes = {"Handle": 16, "Line": 16, "Block": 48, "Outcome": 56, "Piece": 32, "Replies": 32, "Profile": 9, "Fact": 24, "Part": 32, "Carried": 5}
        for name, size in sizes.items():
            self.assertEqual(ctypes.sizeof(getattr(_interface, name)), size, name)

    def test_copies(self):
        with Down() as down:
            for call in (copy.copy, copy.deepcopy, pickle.dumps):
                self.assertRaises(TypeError, call, down)

    def test_version(self):
        self.assertEqual(version() >> 8, _numbers.VERSION >> 8)
        self.assertEqual(larboardyuzu.__version__, "{}.{}.{}".format(*_numbers.VERSION.to_bytes(3, "big")))

    def test_no_library(self):
        code = "import larboardyuzu"
        env = {**os.environ, "LARBOARDYUZU_LIBRARY": "/no/such/file", "PYTHONPATH": os.pathsep.join(sys.path)}
        done = subprocess.run([sys.executable, "-c", code], env=env, capture_output=True, text=True, check=False)
        self.assertEqual(done.returncode, 1)
        self.assertIn("LARBOARDYUZU_LIBRARY", done.stderr.splitlines()[-1])


if __name__ == "__main__":
    unittest.main()
