"""Down and up. The expected values come from the standards: M2-104-UM (formats and the default translation), M2-115-U (scaling)."""
import unittest
from array import array

from larboardyuzu import Down, Kind, Line, Refused, Status, Up

NOTE = [0x40903C00, 0xC9240000]
INCREMENT = [0x20B06001]


class DownTest(unittest.TestCase):
    def sent(self, words, **options):
        with Down(64, **options) as down:
            piece = down.packet(words)
        self.assertIsNone(piece.line)
        return piece.lane, piece.data.hex(" ")

    def test_voice_messages(self):
        rows = [
            (NOTE, (0, "90 3c 64")),
            ([0x4A853C00, 0x80000000], (10, "85 3c 40")),
            ([0x40A04C00, 0xAAF96252], (0, "a0 4c 55")),
            ([0x40B30700, 0xFFFFFFFF], (0, "b3 07 7f")),
            ([0x40E00000, 0x80000000], (0, "e0 00 40")),
            ([0x40C00001, 0x05000102], (0, "b0 00 01 b0 20 02 c0 05")),
            ([0x40200001, 0x80000000], (0, "b0 65 00 b0 64 01 b0 06 40 b0 26 00")),
            ([0x23903C64], (3, "90 3c 64")),
            ([0x10F80000], (0, "f8")),
        ]
        for words, expected in rows:
            self.assertEqual(self.sent(words), expected)

    def test_styles(self):
        parameter = [0x40200001, 0x80000000]
        with Down(64, compact=True) as down:
            self.assertEqual(down.packet(parameter).data.hex(" "), "b0 65 00 64 01 06 40 26 00")
            self.assertEqual(down.packet(parameter).data.hex(" "), "06 40 26 00")
            down.reset()
            self.assertEqual(down.packet(parameter).data.hex(" "), "b0 65 00 64 01 06 40 26 00")
        self.assertEqual(self.sent([0x40B00700, 0xFFFFFFFF], paired=True), (0, "b0 07 7f b0 27 7f"))

    def test_exclusive(self):
        with Down(64) as down:
            self.assertEqual(down.packet([0x30160102, 0x03040506], 40).data, b"")
            self.assertEqual((down.begun(0), down.begun(1)), (40, None))
            self.assertEqual(down.packet([0x30310700, 0]).data.hex(" "), "f0 01 02 03 04 05 06 07 f7")
            self.assertIsNone(down.begun(0))

    def test_lines(self):
        rows = [
            ([0x00000000], Line(40, None, Kind.UTILITY)),
            ([0xF0000101, 0x1F, 0, 0], Line(40, None, Kind.STREAM)),
            ([0x42903C01, 0xC9240007], Line(40, 2, Kind.NOTE_ATTRIBUTE)),
            ([0x32310700, 0], Line(40, 2, Kind.STRAY_EXCLUSIVE)),
        ]
        with Down() as down:
            for words, expected in rows:
                self.assertEqual(down.packet(words, 40).line, expected)

    def test_refusals(self):
        rows = [
            ([], Status.BAD_WORD_COUNT),
            (NOTE[:1], Status.BAD_WORD_COUNT),
            (INCREMENT, Status.DATA_INCREMENT),
            ([0x20B06101], Status.DATA_DECREMENT),
            ([0x20903C80], Status.HIGH_BIT),
            ([0x30170102, 0x03040506], Status.BAD_COUNT),
        ]
        with Down() as down:
            for words, status in rows:
                with self.assertRaises(Refused) as raised:
                    down.packet(words, 40)
                self.assertEqual((raised.exception.status, raised.exception.offset), (status, 40))
                self.assertEqual(str(raised.exception), f"{status.name} at 40")

    def test_block(self):
        with Down(64) as down:
            block = down.packets([*NOTE, *INCREMENT, *NOTE], 100)
            self.assertEqual([it.data for it in block.items], [b"\x90\x3c\x64"])
            self.assertEqual((block.taken, block.refused), (3, 1))
            self.assertEqual((block.error.status, block.error.offset), (Status.DATA_INCREMENT, 108))
            block = down.packets(NOTE[:1], 112)
            self.assertEqual((block.items, block.taken, block.refused), ([], 0, 0))
            self.assertEqual((block.error.status, block.error.offset), (Status.BAD_WORD_COUNT, 112))
            block = down.packets([])
            self.assertEqual((block.items, block.taken, block.error), ([], 0, None))

    def test_many(self):
        """More packets than a call of C is passed, and exclusives that fill the buffer."""
        exclusive = [0x30160102, 0x03040506, *[0x30260102, 0x03040506] * 9, 0x30310700, 0]
        words = (NOTE + exclusive) * 1000
        with Down(64) as down:
            for given in (words, array("I", words), memoryview(array("I", words)), memoryview(array("I", words)).toreadonly(), iter(words)):
                block = down.packets(given)
                self.assertEqual((block.taken, block.refused, block.error), (len(words), 0, None))
                self.assertEqual(len(block.items), 12_000)
                whole = b"\xf0" + bytes([1, 2, 3, 4, 5, 6] * 10 + [7]) + b"\xf7"
                self.assertEqual(b"".join(it.data for it in block.items), (b"\x90\x3c\x64" + whole) * 1000)


class UpTest(unittest.TestCase):
    def raised(self, text, **options):
        with Up(3, 64, **options) as up:
            block = up.bytes(bytes.fromhex(text))
        self.assertIsNone(block.error)
        return [it.words for it in block.items]

    def test_voice_messages(self):
        rows = [
            ("90 3C 64", [[0x43903C00, 0xC9240000]]),
            ("90 3C 00", [[0x43803C00, 0x80000000]]),
            ("E0 00 40", [[0x43E00000, 0x80000000]]),
            ("B0 07 7F", [[0x43B00700, 0xFFFFFFFF]]),
            ("B0 00 01 20 02 C0 05", [[0x43C00001, 0x05000102]]),
            ("F8", [[0x13F80000]]),
            ("F0 01 02 03 04 05 06 07 F7", [[0x33160102, 0x03040506, 0x33310700, 0]]),
        ]
        for text, expected in rows:
            self.assertEqual(self.raised(text), expected)

    def test_lines(self):
        with Up(3, 64) as up:
            self.assertEqual(up.byte(0x40, 7).lines, (Line(7, 3, Kind.STRAY),))
            block = up.bytes(b"\xf0\x01\xf4\x90", 8)
            self.assertEqual(len(block.items), 1)
            self.assertEqual(block.items[0].offset, 10)
            self.assertEqual(block.items[0].lines, (Line(8, 3, Kind.CUT_EXCLUSIVE), Line(10, 3, Kind.UNDEFINED)))
            self.assertEqual(up.end(), Line(11, 3, Kind.OPEN_MESSAGE))
            up.reset()
            self.assertIsNone(up.end())

    def test_refusals(self):
        with Up(0, 6) as up:
            block = up.bytes(b"\xb0\x60\x01\x90\x3c\x64")
            self.assertEqual((block.taken, block.refused, block.error.status), (3, 1, Status.DATA_INCREMENT))
            block = up.bytes([0xF0, 1, 2, 3, 4, 5, 6, 7, 8], 20)
            self.assertEqual((block.taken, block.error.status, block.error.offset), (8, Status.EXCLUSIVE_TOO_LONG, 27))

    def test_many(self):
        data = b"\x90\x3c\x64" * 5000
        with Up(0, 64) as up:
            block = up.bytes(data, 10)
        self.assertEqual((block.taken, block.error, len(block.items)), (15_000, None, 5000))
        self.assertEqual([it.offset for it in block.items], list(range(12, 15_010, 3)))
        self.assertTrue(all(it.words == NOTE for it in block.items))

    def test_same_one_by_one(self):
        data = bytes.fromhex("90 3C 64 F0 01 F4 B0 65 00 64 01 06 40 F8 F0 01 02 F7 C0")
        with Up(1, 64, paired=True) as one, Up(1, 64, paired=True) as many:
            singles = [one.byte(byte, at) for at, byte in enumerate(data)]
            self.assertEqual(many.bytes(data).items, [it for it in singles if it.words or it.lines])
            self.assertEqual(one.end(), many.end())


if __name__ == "__main__":
    unittest.main()
