"""The parser, USB-MIDI events, 8-bit exclusives, the endpoint and the state. The expected values come from M2-104-UM, M2-101-UM, MIDI 1.0, and
the USB Device Class Definition for MIDI Devices 1.0."""
import gc
import os
import threading
import unittest

from larboardyuzu import (
    Carried,
    Down,
    Endpoint,
    FactKind,
    Heard,
    Joined,
    Kind,
    Line,
    Parser,
    Refused,
    State,
    Status,
    Sysex8,
    Usb,
    exclusive_packets,
    sysex8_packets,
    usb_carried,
)

TOP = os.path.dirname(os.path.dirname(os.path.dirname(os.path.dirname(os.path.abspath(__file__)))))


def setup():
    with open(os.path.join(TOP, "examples", "endpoint.toml"), encoding="utf-8") as it:
        return it.read()


class ParserTest(unittest.TestCase):
    def test_messages(self):
        with Parser(8) as parser:
            block = parser.bytes(bytes.fromhex("90 3C 64 3E F8 64 F2 01 02 F0 01 F7"), 100)
            found = [(it.offset, it.data.hex(" ")) for it in block.items]
            expected = [(102, "90 3c 64"), (104, "f8"), (105, "90 3e 64"), (108, "f2 01 02"), (111, "f0 01 f7")]
            self.assertEqual((found, block.error), (expected, None))
            self.assertEqual(parser.byte(0x90, 3).data, b"")
            self.assertEqual(parser.byte(0xF6, 4), (4, b"\xf6", (Line(3, None, Kind.CUT_MESSAGE),)))

    def test_refusal(self):
        with Parser(6) as parser:
            block = parser.bytes([0xF8, 0xF0, 1, 2, 3, 4, 5, 6, 7, 0x40])
            self.assertEqual((block.taken, block.refused, block.error.status), (9, 1, Status.EXCLUSIVE_TOO_LONG))
            self.assertEqual([it.data for it in block.items], [b"\xf8"])


class UsbTest(unittest.TestCase):
    def test_events(self):
        with Usb(cable=3, room=64) as usb:
            block = usb.bytes(bytes.fromhex("90 3C 64 C1 05 F3 01 F6 F0 01 02 03 F7 FA"))
            found = [it.data.hex(" ") for it in block.items]
            expected = ["39 90 3c 64", "3c c1 05 00", "32 f3 01 00", "35 f6 00 00", "34 f0 01 02 36 03 f7 00", "3f fa 00 00"]
            self.assertEqual(found, expected)
            usb.byte(0xF0, 7)
            self.assertEqual(usb.end(), Line(7, 3, Kind.OPEN_EXCLUSIVE))

    def test_carried(self):
        self.assertEqual(usb_carried(b"\x34\xf0\x01\x02"), Carried(3, b"\xf0\x01\x02"))
        self.assertEqual(usb_carried([0x3F, 0xF8, 0, 0]), Carried(3, b"\xf8"))
        self.assertIsNone(usb_carried(bytes(4)))
        with self.assertRaises(Refused) as raised:
            usb_carried(b"\x3f\xf8\x00")
        self.assertEqual(raised.exception.status, Status.BAD_SIZE)


class Sysex8Test(unittest.TestCase):
    def test_statuses(self):
        start, end = [0x501201A0, 0, 0, 0], [0x503201A1, 0, 0, 0]
        with Sysex8(1, 16) as sysex8:
            self.assertEqual(sysex8.packet(end), (b"", Joined.STRAY, 0, 1, None))
            self.assertEqual(sysex8.packet(start, 16).answer, Joined.HELD)
            self.assertEqual((sysex8.begun(0, 1), sysex8.begun(0, 2)), (16, None))
            self.assertEqual(sysex8.packet([0x501202B0, 0, 0, 0]).answer, Joined.FULL)
            self.assertEqual(sysex8.packet(start, 48), (b"", Joined.RESTARTED, 0, 1, 16))
            block = sysex8.packets(end + [0x20903C64], 64)
            self.assertEqual(block.items[0], (b"\xa0\xa1", Joined.WHOLE, 0, 1, None))
            self.assertEqual((block.items[1].answer, block.taken), (Joined.OTHER, 5))

    def test_there_and_back(self):
        payload = bytes(range(256)) + bytes(44)
        packets = sysex8_packets(2, 9, payload)
        self.assertEqual((len(packets), packets[0][0] >> 24), (24, 0x52))  # 23 times thirteen, and one
        with Sysex8(4, 300) as sysex8:
            block = sysex8.packets(sum(packets, []))
        self.assertEqual([it.data for it in block.items], [b""] * 23 + [payload])


class EndpointTest(unittest.TestCase):
    def test_stream_messages(self):
        with Endpoint(setup()) as endpoint:
            # Endpoint Discovery that asks for the info alone: UMP 1.1, static, one block, both protocols
            replies = endpoint.packet([0xF0000101, 1, 0, 0])
            self.assertEqual(replies, ([0xF0010101, 0x81000300, 0, 0], Heard.ANSWERED, None, None))
            self.assertEqual(endpoint.protocol, 2)
            block = endpoint.packets([0xF0050100, 0, 0, 0, 0x32310700, 0], 40)
            self.assertEqual(block.items[0].words, [0xF0060100, 0, 0, 0])
            self.assertEqual(block.items[1].line, Line(56, 2, Kind.STRAY_EXCLUSIVE))
            self.assertEqual(endpoint.protocol, 1)
            endpoint.reset()
            self.assertEqual(endpoint.protocol, 2)

    def test_profile(self):
        # Set Profile On (22) to channel 2, version 2, from MUID 5 to 19088743; the report (24) goes to all
        on = bytes.fromhex("7E 02 0D 22 02 05 00 00 00 67 0A 0D 09 7E 00 01 01 00 00 00")
        report = bytes.fromhex("7E 02 0D 24 02 67 0A 0D 09 7F 7F 7F 7F 7E 00 01 01 00 01 00")
        with Endpoint(setup().encode()) as endpoint:
            self.assertEqual(endpoint.profiles(), [(0, 0, 2, b"\x7e\x00\x01\x01\x00", False)])
            block = endpoint.packets(sum(exclusive_packets(0, on), []))
            self.assertEqual(block.items[-1], (sum(exclusive_packets(0, report), []), Heard.ANSWERED, 0, None))
            self.assertTrue(endpoint.profile(0).is_on)
            self.assertIsNone(endpoint.profile(1))

    def test_muids(self):
        # Invalidate MUID (7E), version 2, from MUID 5 to all, of 19088743
        invalidate = bytes.fromhex("7E 7F 0D 7E 02 05 00 00 00 7F 7F 7F 7F 67 0A 0D 09")
        with Endpoint(setup()) as endpoint:
            self.assertEqual((endpoint.muid(0), endpoint.muid(1)), (19_088_743, None))
            block = endpoint.packets(sum(exclusive_packets(0, invalidate), []))
            self.assertEqual((block.items[-1].heard, endpoint.muid(0)), (Heard.MOVED, 300))
            endpoint.packet([0x30160102, 0x03040506], 8)
            self.assertEqual(endpoint.begun(0), 8)

    def test_setups(self):
        for text, status, rule in [("= 3", Status.SETUP_SYNTAX, None), ("endpoint = 3", Status.SETUP_RULE, 1)]:
            with self.assertRaises(Refused) as raised:
                Endpoint(text)
            self.assertEqual((raised.exception.status, raised.exception.rule), (status, rule))


class StateTest(unittest.TestCase):
    def test_packets(self):
        words = [0x41923C00, 0xC9240000, 0x41C20001, 0x05000102, 0x41220003, 0x12345678, 0x31010700, 0, 0x11F80000]
        with State(64, 8, 8) as state:
            block = state.packets(words)
            self.assertEqual((block.items, block.taken, block.error), ([], 9, None))
            expected = [
                (FactKind.ON, 1, 2, 0x3C, None, None, 0xC924, 0, False),
                (FactKind.PROGRAM, 1, 2, 5, (1, 2), None, None, 0, False),
                (FactKind.REGISTERED, 1, 2, 3, None, 0, 0x12345678, 0, False),
            ]
            self.assertEqual(state.facts(1, 2), expected)
            counts = [(it.kind, it.channel, it.count) for it in state.facts(1)]
            self.assertEqual(counts, [(FactKind.SYSTEM, None, 1), (FactKind.REAL_TIME, None, 1)])
            state.reset()
            self.assertEqual((state.facts(1, 2), state.facts(1)), ([], []))

    def test_many_facts(self):
        with State(64, 1000, 0) as state:
            for note in range(100):
                state.packet([0x20900040 | note << 8])
            self.assertEqual([it.number for it in state.facts(0, 0)], list(range(100)))

    def test_bytes(self):
        with State(64, 8, 8, of_bytes=True) as state:
            block = state.bytes(bytes.fromhex("92 3C 64 C2 05 F8"))
            self.assertEqual((block.taken, block.error), (6, None))
            self.assertEqual([(it.kind, it.number, it.value) for it in state.facts(0, 2)], [(FactKind.ON, 60, 100), (FactKind.PROGRAM, 5, None)])

    def test_notes_are_a_history(self):
        # a Note Off removes nothing, and is the third of two
        with State(64, 2, 0, of_bytes=True) as state:
            block = state.bytes(bytes.fromhex("90 3C 64 80 3C 40 90 3C 64"))
            self.assertEqual((block.taken, block.error.status, block.error.offset), (9, Status.STATE_FULL, 8))
            self.assertEqual([(it.kind, it.value) for it in state.facts(0, 0)], [(FactKind.ON, 100), (FactKind.OFF, 64)])
            state.bytes(bytes.fromhex("E0 00 40 D0 00"))  # the bend at its centre, and no pressure
            self.assertEqual(len(state.facts(0, 0)), 2)

    def test_refusals(self):
        with State(64, 1, 0) as state:
            block = state.packets([0x20903C64, 0x20903E64, 0x20B00705])
            self.assertEqual((block.taken, block.refused), (2, 1))
            self.assertEqual((block.error.status, block.error.offset), (Status.STATE_FULL, 4))
            for call, status in [
                (lambda: state.byte(0x90), Status.OTHER_KIND),
                (lambda: state.bytes(b"\x90"), Status.OTHER_KIND),
                (lambda: state.packet([0x20903E64]), Status.STATE_FULL),
                (lambda: state.facts(16), Status.BAD_GROUP),
                (lambda: state.facts(0, 16), Status.BAD_CHANNEL),
                (lambda: state.facts(0, 255), Status.BAD_CHANNEL),
            ]:
                with self.assertRaises(Refused) as raised:
                    call()
                self.assertEqual(raised.exception.status, status)


class HandleTest(unittest.TestCase):
    def test_closed(self):
        down = Down()
        self.assertEqual((down.closed, repr(down)), (False, "<Down open>"))
        down.close()
        down.close()
        self.assertEqual((down.closed, repr(down)), (True, "<Down closed>"))
        for call in (lambda: down.packet([0x20903C64]), lambda: down.packets([]), lambda: down.begun(0), down.reset):
            with self.assertRaises(Refused) as raised:
                call()
            self.assertEqual(raised.exception.status, Status.HANDLE_CLOSED)

    def test_forgotten(self):
        """A handle that is forgotten is closed, and one whose opening failed needs no closing."""
        down = Down()
        finalizer = down._finalizer
        del down
        gc.collect()
        self.assertFalse(finalizer.alive)
        with self.assertRaises(Refused):
            Down(5)

    def test_threads(self):
        """One handle from thread to thread, and each thread with its own."""
        with Down(64) as down:
            lock, found = threading.Lock(), []

            def send():
                with Down(64) as own:
                    for _ in range(200):
                        with lock:
                            found.append(down.packet([0x20903C64]).data == own.packet([0x20903C64]).data)

            threads = [threading.Thread(target=send) for _ in range(4)]
            for thread in threads:
                thread.start()
            for thread in threads:
                thread.join()
        self.assertEqual(found, [True] * 800)


if __name__ == "__main__":
    unittest.main()
