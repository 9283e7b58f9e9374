"""The calls over arrays. The expected values come from M2-104-UM; those of random input are what the block calls give."""
import random
import unittest
from array import array

from larboardyuzu import Down, Kind, Line, Refused, Status, Up

NOTE = [0x40903C00, 0xC9240000]
# Data increment, which has no translation.
INCREMENT = [0x20B06001]


def in_group(group, packet):
    return [packet[0] | group << 24, *packet[1:]]


def told(refused):
    return [(it.status, it.offset) for it in refused]


def by_packets(words, offset, **options):
    """What Down.packets gives, by lanes, going on after each refusal: the lanes, the lines, the refusals and how many words were taken."""
    lanes, lines, refused, taken = [b""] * 16, [], [], 0
    with Down(64, **options) as down:
        while True:
            block = down.packets(words[taken:], offset + 4 * taken & 0xFFFFFFFFFFFFFFFF)
            for piece in block.items:
                lanes[piece.lane] += piece.data
                lines += [piece.line] if piece.line else []
            taken += block.taken
            refused += [block.error] if block.refused else []
            if block.error is None or not block.taken:
                return lanes, lines, told(refused), taken


def by_bytes(data, offset):
    words, lines, refused, taken = [], [], [], 0
    with Up(5, 64) as up:
        while True:
            block = up.bytes(data[taken:], offset + taken & 0xFFFFFFFFFFFFFFFF)
            for raised in block.items:
                words += raised.words
                lines += raised.lines
            taken += block.taken
            refused += [block.error] if block.refused else []
            if taken == len(data):
                return words, lines, told(refused)


class DownTest(unittest.TestCase):
    def test_lanes(self):
        words = [*in_group(3, NOTE), *NOTE, *INCREMENT, 0x00000000, *in_group(3, NOTE), NOTE[0]]
        with Down(64) as down:
            found = down.translate(array("I", words), 100)
        self.assertEqual(len(found.lanes), 16)
        self.assertEqual((found.lanes[0].hex(), found.lanes[3].hex()), ("903c64", "903c64903c64"))
        self.assertEqual([it for at, it in enumerate(found.lanes) if at not in (0, 3)], [b""] * 14)
        self.assertEqual(found.lines, [Line(120, None, Kind.UTILITY)])
        self.assertEqual(told(found.refused), [(Status.DATA_INCREMENT, 116)])
        self.assertEqual(found.taken, 8)  # the last packet has one word of two

    def test_many_packets_of_sixteen_lanes(self):
        random.seed(1)
        groups = [random.randrange(16) for _ in range(70_000)]
        words = array("I", [word for group in groups for word in in_group(group, NOTE)])
        with Down(64) as down:
            found = down.translate(words)
            one = down.translate(array("I", NOTE * 40_000))
        self.assertEqual(found.lanes, [bytes.fromhex("903c64") * groups.count(group) for group in range(16)])
        self.assertEqual((found.lines, found.refused, found.taken), ([], [], 140_000))
        self.assertEqual((one.lanes[0], one.taken), (bytes.fromhex("903c64") * 40_000, 80_000))

    def test_an_exclusive_goes_on_in_the_next_call(self):
        with Down(64) as down:
            first = down.translate([0x31160102, 0x03040506])
            second = down.translate([0x31310700, 0])
        self.assertEqual((first.lanes[1], second.lanes[1].hex()), (b"", "f001020304050607f7"))

    def test_as_the_block_calls(self):
        for seed in range(20):
            random.seed(seed)
            words = array("I", [random.choice((0x40900000, 0x20B00000, 0x30000000, 0x00000000)) | random.getrandbits(28) & 0x0F7F7F7F for _ in range(900)])
            options = {"compact": seed % 2 == 1, "paired": seed % 3 == 1}
            offset = (1 << 64) - 200
            with Down(64, **options) as down:
                found = down.translate(words, offset)
            self.assertEqual((found.lanes, found.lines, told(found.refused), found.taken), by_packets(words, offset, **options))

    def test_what_is_taken(self):
        wanted = bytes.fromhex("903c64")
        with Down(64) as down:
            for words in (NOTE, tuple(NOTE), array("I", NOTE), memoryview(array("I", NOTE)), memoryview(array("I", NOTE)).toreadonly(), array("L", NOTE)):
                self.assertEqual(down.translate(words).lanes[0], wanted)
            self.assertEqual(down.translate([]).taken, 0)
            with self.assertRaises(TypeError):
                down.translate(b"\x40\x90\x3C\x00")
            with self.assertRaises(OverflowError):
                down.translate(NOTE, -1)
        with self.assertRaises(Refused) as caught:
            down.translate(NOTE)
        self.assertEqual(caught.exception.status, Status.HANDLE_CLOSED)


class UpTest(unittest.TestCase):
    def test_words(self):
        # A stray data byte, a note, control change 96, an exclusive that is cut off by a note, and a clock.
        data = bytes.fromhex("40 90 3C 64 B0 60 01 F0 01 90 3C 64 F8")
        with Up(2, 64) as up:
            found = up.translate(data, 10)
        note = [0x42903C00, 0xC9240000]
        self.assertEqual(list(found.words), [*note, *note, 0x12F80000])
        self.assertEqual(found.lines, [Line(10, 2, Kind.STRAY), Line(17, 2, Kind.CUT_EXCLUSIVE)])
        self.assertEqual(told(found.refused), [(Status.DATA_INCREMENT, 16)])

    def test_many_bytes(self):
        with Up(0, 64) as up:
            found = up.translate(bytearray(bytes.fromhex("903c64") * 70_000))
        self.assertEqual(found.words, array("I", [0x40903C00, 0xC9240000] * 70_000))
        self.assertEqual((found.lines, found.refused), ([], []))

    def test_as_the_block_calls(self):
        for seed in range(20):
            random.seed(seed)
            data = bytes(random.choice((random.getrandbits(7), random.choice((0x90, 0xB0, 0xC0, 0xF0, 0xF7, 0xF8, 0xF4)), 0x60)) for _ in range(900))
            offset = (1 << 64) - 100
            with Up(5, 64) as up:
                found = up.translate(data, offset)
            self.assertEqual((list(found.words), found.lines, told(found.refused)), by_bytes(data, offset))

    def test_nothing(self):
        with Up() as up:
            self.assertEqual(list(up.translate(b"").words), [])
        with self.assertRaises(Refused):
            up.translate(b"")


if __name__ == "__main__":
    unittest.main()
