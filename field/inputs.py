#!/usr/bin/env python3
"""inputs.py FOLDER PROGRAM: writes what the virtual machine gets: setups and the gadget's commands, questions, packets and bytes.

The bytes that single packets should give come from PROGRAM run over files: the test compares a live run with a run over a file."""
import os
import random
import struct
import subprocess
import sys
import tempfile

import setups

# Endpoint Discovery with each filter, with reserved bits, of another version and form; Function Block Discovery of all, one, and a block that
# isn't there; Stream Configuration Requests, the last of which goes back to protocol 2; and two messages that have no reply.
QUESTIONS = """\
F0000101 0000001F
F0000101 00000001
F0000101 00000002
F0000101 00000004
F0000101 00000008
F0000101 00000010
F0000101 00000000
F0000101 000000E0
F0000200 0000001F
F0000101 00000001 12345678 9ABCDEF0
F4000101 0000001F
F010FF03
F010FF01
F010FF02
F0100003
F0100103
F0102003
F0101F01
F0100000
F410FF03
F0050100
F0000101 00000010
F0050000
F0050300
F0050203
F0000101 00000010
F0050200
F0010101 81000300
F0300000
"""
GROUPS = (0, 1, 5)
ONE_BY_ONE = 12


def little(packets):
    """Words in the order of the machine, as the kernel's files have them."""
    return b"".join(struct.pack(f"<{len(it)}I", *it) for it in packets)


def exclusive(group, data):
    """The packets of a 7-bit exclusive."""
    parts = [data[at:at + 6] for at in range(0, len(data), 6)] or [b""]
    forms = [0] if len(parts) == 1 else [1, *[2] * (len(parts) - 2), 3]
    for form, part in zip(forms, parts):
        head = 0x30000000 | group << 24 | form << 20 | len(part) << 16
        whole = part.ljust(6, b"\0")
        yield head | whole[0] << 8 | whole[1], int.from_bytes(whole[2:], "big")


def voice(draw, group):
    """A channel voice message of MIDI 2.0."""
    head = 0x40000000 | group << 24 | draw.randrange(16) << 16
    key, value = draw.randrange(128) << 8, draw.getrandbits(32)
    controllers = [1, 2, 4, 5, 7, 10, 11, 33, 39, 64, 70, 74, 91, 120, 121, 123]
    bank = draw.randrange(128) << 8 | draw.randrange(128)
    return draw.choice([(head | 0x900000 | key, value & 0xFFFF0000), (head | 0x800000 | key, value & 0xFFFF0000), (head | 0xA00000 | key, value),
                        (head | 0xB00000 | draw.choice(controllers) << 8, value), (head | 0xC00001, key << 16 | bank),
                        (head | 0xC00000, key << 16), (head | 0xD00000, value), (head | 0xE00000, value),
                        (head | 0x200000 | draw.randrange(3) << 8 | draw.randrange(7), value),
                        (head | 0x300000 | draw.randrange(127) << 8 | draw.randrange(127), value)])


def old_voice(draw, group):
    """A channel voice message of MIDI 1.0 in a packet."""
    status = draw.choice([0x80, 0x90, 0xA0, 0xB0, 0xE0]) | draw.randrange(16)
    return (0x20000000 | group << 24 | status << 16 | draw.choice([7, 10, 60]) << 8 | draw.randrange(128),)


def system(draw, group):
    status = draw.choice([0xF1, 0xF2, 0xF3, 0xF6, 0xF8, 0xFA, 0xFB, 0xFC, 0xFE])
    first = draw.randrange(128) if status in (0xF1, 0xF2, 0xF3) else 0
    return (0x10000000 | group << 24 | status << 16 | first << 8 | (draw.randrange(128) if status == 0xF2 else 0),)


def music(draw):
    """Four hundred steps in three groups."""
    for _ in range(400):
        group, kind = draw.choice(GROUPS), draw.randrange(13)
        if kind < 10:
            yield voice(draw, group)
        elif kind == 10:
            yield from exclusive(group, bytes([0x7D, *(draw.randrange(128) for _ in range(draw.randrange(40)))]))
        else:
            yield old_voice(draw, group) if kind == 11 else system(draw, group)


def some_exclusive(draw):
    """An exclusive, at times with a clock inside."""
    data = [draw.randrange(128) for _ in range(draw.randrange(25))]
    if draw.random() < 0.3:
        data.insert(len(data) // 2, 0xF8)
    return bytes([0xF0, 0x7D, *data, 0xF7])


def cable(seed):
    """MIDI 1.0 bytes with running status and every status that a receiver knows."""
    draw, data = random.Random(seed), bytearray()
    for _ in range(300):
        kind, one, two = draw.randrange(12), draw.randrange(128), draw.randrange(128)
        if kind < 5:
            data += bytes([(0x80, 0x90, 0xA0, 0xB0, 0xE0)[kind] | draw.randrange(16), one, two])
            data += bytes([draw.randrange(128), draw.randrange(128)] * (draw.random() < 0.3))
        elif kind < 7:
            data += bytes([(0xC0, 0xD0)[kind - 5] | draw.randrange(16), one])
        elif kind == 7:
            data += some_exclusive(draw)
        else:
            data += (bytes([draw.choice([0xF8, 0xFA, 0xFB, 0xFC, 0xFE])]), bytes([0xF2, one, two]), bytes([draw.choice([0xF1, 0xF3]), one]),
                     b"\xF6")[kind - 8]
    # No controller 96 or 97, which `translate up` refuses.
    return bytes(data).replace(b"\x60", b"\x5F").replace(b"\x61", b"\x5F")


def muid(number):
    return [number >> 7 * place & 127 for place in range(4)]


def midi_ci():
    """A peer with MUID 5: Discovery, Profile Inquiry, and Set Profile On of the example's profile."""
    ours, everybody = muid(19088743), muid(0xFFFFFFF)
    for body in ([0x7F, 0x0D, 0x70, 2, *muid(5), *everybody, 0x7D, 0, 0, 1, 0, 2, 0, 1, 0, 0, 0, 4, 0, 4, 0, 0, 0],
                 [0x7F, 0x0D, 0x20, 2, *muid(5), *ours], [0x02, 0x0D, 0x22, 2, *muid(5), *ours, 0x7E, 0, 1, 1, 0, 1, 0]):
        yield from exclusive(0, bytes([0x7E, *body]))


def down(program, packets):
    """The streams of groups 0, 1 and 5 that the program makes of a file of packets."""
    with tempfile.TemporaryDirectory() as folder:
        subprocess.run([program, "translate", "down", "--little", "--folder", folder], input=little(packets), check=True, capture_output=True)
        for group in GROUPS:
            with open(f"{folder}/group-{group:02}.midi1", "rb") as it:
                yield group, it.read()


def questions(setup):
    """The questions by hand, each after the number of packets that answer it."""
    by_rule = setups.Replies(setup)
    return "".join(f"{len(by_rule.to(line.split()))} {line}\n" for line in QUESTIONS.splitlines())


def write(path, data):
    with open(path, "wb") as it:
        it.write(data.encode() if isinstance(data, str) else data)


def main(folder, program):
    os.makedirs(folder, exist_ok=True)
    for name, text in setups.texts().items():
        setup = setups.all_setups()[name]
        write(f"{folder}/{name}.toml", text)
        write(f"{folder}/{name}.gadget", setups.gadget_commands(setup))
        write(f"{folder}/{name}.questions", questions(setup))
    packets = [*music(random.Random(20))]
    write(f"{folder}/music.packets", little(packets))
    write(f"{folder}/ci.packets", little(midi_ci()))
    single = [it for it in packets if it[0] >> 28 == 4][:ONE_BY_ONE]
    for number, it in enumerate(single):
        write(f"{folder}/one.{number:02}.packet", little([it]))
        for group, stream in down(program, single[:number + 1]):
            write(f"{folder}/one.{number:02}.{group:02}", stream)
    for number in (0, 1):
        write(f"{folder}/cable{number}.bytes", cable(1 + number))


if __name__ == "__main__":
    if len(sys.argv) != 3:
        sys.exit(__doc__.splitlines()[0])
    main(*sys.argv[1:])
