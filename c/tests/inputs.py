"""Generated input: recordings of packets, MIDI 1.0 streams, conversations with an endpoint and USB-MIDI events, the same for each seed."""
import struct

SETUP = """[endpoint]
name = "Demo Endpoint X"
id = "SN-0001"
manufacturer = [125, 0, 0]
family = 1
model = 2
revision = [1, 0, 0, 0]
midi1 = true
midi2 = true
protocol = 2
static = true
[[block]]
active = true
name = "Main, with a name that needs more packets than one"
hint = 3
midi1 = 0
direction = 3
first = 0
count = 2
ci = 2
sysex8 = 0
muids = [19088743, 300]
[[block]]
active = true
name = "Second"
hint = 1
midi1 = 1
direction = 1
first = 2
count = 1
ci = 1
sysex8 = 4
muids = [301, 302, 303]
[[profile]]
block = 0
place = "channel"
group = 0
channel = 2
id = [126, 0, 1, 1, 0]
on = false
[[profile]]
block = 0
place = "group"
group = 1
id = [126, 0, 1, 1, 0]
on = true
[[profile]]
block = 1
place = "function"
id = [1, 2, 3, 4, 5]
on = true
"""
MUIDS = [19088743, 300, 301, 302, 303, 0x0FFFFFFF, 0x0FFFFF00, 0, 12345]
WORDS = [1, 1, 1, 2, 2, 4, 1, 1, 2, 2, 2, 3, 3, 4, 4, 4]


def words_to_bytes(words, little=False):
    return struct.pack(("<" if little else ">") + f"{len(words)}I", *words)


def exclusive(group, payload):
    """The packets of a 7-bit exclusive."""
    pieces = [payload[i : i + 6] for i in range(0, len(payload), 6)] or [b""]
    for i, piece in enumerate(pieces):
        form = 0 if len(pieces) == 1 else 1 if i == 0 else 3 if i == len(pieces) - 1 else 2
        head = bytes([0x30 | group, form << 4 | len(piece)])
        yield list(struct.unpack(">2I", head + piece.ljust(6, b"\0")))


def data8(r, group):
    """A packet of an 8-bit exclusive, or of mixed data."""
    first = 0x50000000 | group << 24 | r.choice((0, 1, 1, 2, 3, 3, 8)) << 20 | r.randint(1, 14) << 16 | r.randrange(3) << 8
    return [first | r.randrange(256)] + [r.getrandbits(32) for _ in range(3)]


def voice2(r, group):
    """A channel voice message of the MIDI 2.0 protocol, which isn't refused."""
    opcode, index = r.choice((0, 1, 2, 3, 4, 5, 6, 8, 9, 9, 9, 10, 11, 11, 11, 12, 13, 14, 15)), r.randrange(128)
    if opcode == 11 and index in (96, 97):
        index = 7
    if opcode in (2, 3):
        index = r.choice((0, 1, 127))
    second = r.choice((0, 127, r.randrange(128)))
    low = r.choice((second, 7, r.randrange(4)))
    value = r.choice((0, 0x80000000, 0xFFFFFFFF, r.getrandbits(32)))
    if opcode == 12:
        value = r.getrandbits(32) & 0x7F007F7F
    return [0x40000000 | group << 24 | opcode << 20 | r.randrange(3) << 16 | index << 8 | low, value]


def voice1(r, group):
    """A channel voice message of the MIDI 1.0 protocol, which isn't refused."""
    status, first = r.randrange(8, 15), r.choice((r.randrange(128), 0, 6, 32, 38, 98, 99, 100, 101, 121, 123))
    if status == 11 and first in (96, 97):
        first = 10
    return [0x20000000 | group << 24 | status << 20 | r.randrange(3) << 16 | first << 8 | r.randrange(128)]


def system(r, group):
    status = r.choice((0xF8, 0xFA, 0xFC, 0xFE, 0xFF, 0xF1, 0xF2, 0xF3, 0xF6, 0xF4))
    return [0x10000000 | group << 24 | status << 16 | r.randrange(128) << 8 | r.randrange(128)]


def stream(r):
    """A stream message: a discovery, a request of a protocol, or any other."""
    kind = r.random()
    if kind < 0.3:
        return [0xF0000101, r.randrange(32), 0, 0]
    if kind < 0.6:
        return [0xF0100000 | r.choice((0, 1, 2, 255)) << 8 | r.randrange(4), 0, 0, 0]
    if kind < 0.8:
        return [0xF0050000 | r.choice((1, 2, 3)) << 8 | r.randrange(4), 0, 0, 0]
    return [0xF0000000 | r.getrandbits(28)] + [r.getrandbits(32) for _ in range(3)]


def seven(number, count):
    return bytes(number >> 7 * i & 127 for i in range(count))


def ci_message(r):
    """A MIDI-CI message, between F0 and F7; now and then it is cut short."""
    kind = r.choice((0x70, 0x70, 0x71, 0x7E, 0x7F, 0x20, 0x20, 0x22, 0x22, 0x23, 0x23, 0x24, 0x28, 0x30, 0x34, 0x40, 0x72, r.randrange(128)))
    tail = {
        0x70: seven(r.getrandbits(77), 11) + b"\x02" + seven(512, 4) + b"\0",
        0x7E: seven(r.choice(MUIDS), 4),
        0x22: r.choice((b"\x7e\0\1\1\0", b"\1\2\3\4\5")) + b"\1\0",
        0x23: r.choice((b"\x7e\0\1\1\0", b"\1\2\3\4\5")) + b"\0\0",
    }.get(kind, bytes(r.randrange(128) for _ in range(r.randrange(20))))
    head = bytes([0x7E, r.choice((0x7F, 0x7E, 0, 2, 2, 5)), 0x0D, kind, r.choice((2, 2, 2, 1, 0))])
    message = head + seven(r.choice(MUIDS), 4) + seven(r.choice(MUIDS[:6]), 4) + tail
    return message[: r.randrange(len(message) + 1)] if r.random() < 0.1 else message


def any_packet(r):
    """A packet of random bits, which may be refused, or a data increment, which is."""
    first = r.choice((r.getrandbits(32), 0x20B06001, 0x40B06100, 0x20903C80, 0x40903CFF, 0x30370000))
    return ([first] + [r.getrandbits(32) for _ in range(3)])[: WORDS[first >> 28]]


def packets(r, count, peer=False):
    """A recording, as a list of words. Exclusives of several groups cross; with `peer` most packets are those of a peer of an endpoint. In one
    of three recordings there are packets that may be refused."""
    words, open_packets = [], {}
    trouble = r.choice((0, 0, 0.01))
    for _ in range(count):
        group = r.choice((0, 0, 1, 2, 15))
        if open_packets.get(group) and r.random() < 0.8:
            words += open_packets[group].pop(0)
            continue
        kind = r.random()
        if kind < trouble:
            words += any_packet(r)
        elif kind < 0.02:
            words += [r.getrandbits(32) & 0x0FFFFFFF]
        elif peer and kind < 0.4:
            words += stream(r)
        elif peer and kind < 0.8:
            open_packets[group] = list(exclusive(group, ci_message(r)))
        elif kind < 0.12:
            open_packets[group] = list(exclusive(group, bytes(r.randrange(128) for _ in range(r.choice((0, 3, 6, 7, 30, 200))))))
        elif kind < 0.16:
            words += r.choice(list(exclusive(group, bytes(20))))
        elif kind < 0.22:
            words += data8(r, group)
        elif kind < 0.26:
            words += r.choice((stream(r), [0xD0000000 | r.getrandbits(28)] + [r.getrandbits(32) for _ in range(3)]))
        elif kind < 0.32:
            words += system(r, group)
        elif kind < 0.6:
            words += voice1(r, group)
        else:
            words += voice2(r, group)
    return words


def midi1(r, count):
    """A MIDI 1.0 stream: messages under running status, parameters, exclusives, and bytes that belong to nothing; in one of three a data
    increment too, which is refused."""
    out, trouble = bytearray(), r.choice((0, 0, 0.02))
    while len(out) < count:
        kind = r.random()
        if kind < 0.1:
            out += b"\xf0" + bytes(r.randrange(128) for _ in range(r.choice((0, 3, 6, 12, 13, 100)))) + (b"\xf7" if r.random() < 0.9 else b"")
        elif kind < 0.15:
            out.append(r.choice((0xF8, 0xFA, 0xFE, 0xFF, 0xF6, 0xF4, 0xF7, 0xF9)))
        elif kind < 0.2:
            out += bytes([r.choice((0xF1, 0xF2, 0xF3)), r.randrange(128), r.randrange(128)][: r.randint(1, 3)])
        elif kind < 0.5:
            out.append(0xB0 | r.randrange(2))
            for control in r.choice(((101, 100, 6, 38), (99, 98, 6), (0, 32), (1, 33, 1), (7,), (96,) if r.random() < trouble else (38,))):
                out += bytes([control, r.choice((0, 1, 127, r.randrange(128)))])
        else:
            out.append(r.randrange(0x80, 0xF0))
            for _ in range(r.randint(1, 5)):
                out.append(r.randrange(96))
                if r.random() < 0.05:
                    out.append(0xF8)
    return bytes(out)


def random_bytes(r, count):
    return bytes(r.randrange(256) if r.random() < 0.3 else r.randrange(128) for _ in range(count))


def events(r, count):
    """USB-MIDI events, of all codes."""
    return b"".join(bytes([r.choice((0, 0x10, 0xF0)) | r.randrange(16), r.randrange(256), r.randrange(128), r.randrange(128)]) for _ in range(count))
