#!/usr/bin/env python3
"""recordings.py FOLDER [--packets N] [--seed S]: writes the recordings of the benchmark into FOLDER, the same for the same N and S.

  mixed.ump      packets of a performance in several groups: notes, controllers, bends, parameters, programs, exclusives, clocks
  listed.ump     the same, but a third of the packets have no counterpart in MIDI 1.0
  type2.ump      MIDI 1.0 voice messages in packets (message type 2) alone, in several groups
  endpoint.ump   packets that an endpoint neither answers nor lists: voice messages, system messages, timestamps
  mixed.midi1    bytes that a keyboard with running status sends, with parameters, exclusives, and clocks inside messages

N is 1,000,000 unless it is given, and S is 20. Exclusives that are open after N packets are ended, so a recording can be a little longer.
mixed.midi1 has N turns, most of which are one message.
"""
import argparse
import os
import random
import struct
import sys

GROUPS = [0] * 12 + [1] * 3 + [2] * 2 + [5] * 2 + [15]
CHANNELS = (0, 0, 0, 1, 2, 9, 15)
CONTROLLERS = [1, 2, 7, 10, 11, 64, 66, 67, 71, 74, 91, 93]
CLOCKS = (0xF8,) * 20 + (0xFE,) * 4
SEVEN_BITS = bytes(byte & 127 for byte in range(256))
NOTE_OFF, NOTE_ON, POLY_PRESSURE, CONTROL_CHANGE, PROGRAM_CHANGE, PRESSURE, BEND = range(0x8, 0xF)
MOST_OPEN_EXCLUSIVES = 4


def exclusive_length(chance):
    kind = chance.random()
    if kind < 0.30:
        return chance.randint(0, 6)
    if kind < 0.70:
        return chance.randint(7, 40)
    if kind < 0.95:
        return chance.randint(41, 300)
    return chance.randint(301, 2000)


def exclusive_packets(group, data):
    """The packets of an exclusive, the last one first."""
    parts = [data[at:at + 6] for at in range(0, len(data), 6)] or [b""]
    last = len(parts) - 1
    packets = []
    for number, part in enumerate(parts):
        form = 0 if last == 0 else 1 if number == 0 else 3 if number == last else 2
        packets.append(struct.pack(">BB6s", 0x30 | group, form << 4 | len(part), part.ljust(6, b"\0")))
    return packets[::-1]


def usual_note(chance):
    return min(127, max(0, int(chance.gauss(60, 16))))


class Packets:
    """A recording of packets while it is made. `exclusives` has, for each group with an open one, the packets to come."""

    def __init__(self, seed, listed=0.0):
        self.chance = random.Random(seed)
        self.listed = listed
        self.written = bytearray()
        self.count = 0
        self.notes_on = []
        self.exclusives = {}

    def put(self, packet):
        self.written += packet
        self.count += 1

    def voice(self, group, opcode, channel, third, fourth, second_word):
        self.put(struct.pack(">BBBBI", 0x40 | group, opcode << 4 | channel, third, fourth, second_word))

    def one_word(self, message_type, group, status, first=0, second=0):
        self.put(struct.pack(">BBBB", message_type << 4 | group, status, first, second))

    def continue_exclusive(self):
        group = self.chance.choice(list(self.exclusives))
        self.put(self.exclusives[group].pop())
        if not self.exclusives[group]:
            del self.exclusives[group]

    def free_group(self):
        group = self.chance.choice(GROUPS)
        while group in self.exclusives:
            group = self.chance.randrange(16)
        return group

    def turn(self):
        """Puts the next packet, or all packets of an exclusive for which there is no room among the open ones."""
        chance = self.chance
        if self.exclusives and chance.random() < 0.5:
            return self.continue_exclusive()
        group = self.free_group()
        channel = chance.choice(CHANNELS)
        if self.listed and chance.random() < self.listed:
            return self.without_counterpart(group, channel)
        kind = chance.random()
        if kind < 0.62:
            return self.note(group, channel)
        if kind < 0.96:
            return self.voice_message(kind, group, channel)
        if kind < 0.975:
            return self.midi1_voice(group, channel)
        if kind < 0.994:
            return self.system(group)
        return self.exclusive(group)

    def without_counterpart(self, group, channel):
        chance = self.chance
        kind = chance.randrange(6)
        if kind == 0:  # a timestamp
            self.put(struct.pack(">I", 0x00200000 | chance.getrandbits(16)))
        elif kind == 1:  # a note with an attribute
            self.voice(group, NOTE_ON, channel, chance.randrange(128), 3, chance.getrandbits(32) | 0x02000000)
        elif kind == 2:  # a bend of one note
            self.voice(group, 0x6, channel, chance.randrange(128), 0, chance.getrandbits(32))
        elif kind == 3:  # a controller of one note
            self.voice(group, 0x0, channel, chance.randrange(128), 3, chance.getrandbits(32))
        elif kind == 4:  # a relative change of a parameter
            self.voice(group, 0x4, channel, 0, chance.randrange(6), chance.getrandbits(32))
        else:  # flex data
            self.put(struct.pack(">IIII", 0xD0100000 | group << 24, chance.getrandbits(32), 0, 0))

    def note(self, group, channel):
        chance = self.chance
        if self.notes_on and chance.random() < 0.5:
            at = chance.randrange(len(self.notes_on))
            its_group, its_channel, note = self.notes_on[at]
            if its_group not in self.exclusives:
                self.notes_on[at] = self.notes_on[-1]
                self.notes_on.pop()
                return self.voice(its_group, NOTE_OFF, its_channel, note, 0, chance.getrandbits(16) << 16)
        note = usual_note(chance)
        velocity = chance.randint(1, 511) if chance.random() < 0.01 else chance.randint(512, 65535)
        self.voice(group, NOTE_ON, channel, note, 0, velocity << 16)
        if len(self.notes_on) < 64:
            self.notes_on.append((group, channel, note))

    def voice_message(self, kind, group, channel):
        """A message of MIDI 2.0 that is no note, by a number from 0.62 to 0.96."""
        chance = self.chance
        if kind < 0.74:
            self.voice(group, CONTROL_CHANGE, channel, chance.choice(CONTROLLERS), 0, chance.getrandbits(32))
        elif kind < 0.83:
            self.voice(group, BEND, channel, 0, 0, chance.getrandbits(32))
        elif kind < 0.89:
            self.voice(group, PRESSURE, channel, 0, 0, chance.getrandbits(32))
        elif kind < 0.93:
            self.voice(group, POLY_PRESSURE, channel, chance.randrange(128), 0, chance.getrandbits(32))
        elif kind < 0.95:  # a parameter, registered or assignable
            self.voice(group, chance.choice((2, 2, 3)), channel, chance.randrange(127), chance.randrange(128), chance.getrandbits(32))
        else:
            self.program(group, channel)

    def program(self, group, channel):
        chance = self.chance
        has_bank = chance.random() < 0.5
        program = chance.randrange(128) << 24
        bank = chance.randrange(128) << 8 | chance.randrange(128) if has_bank else 0
        self.voice(group, PROGRAM_CHANGE, channel, 0, int(has_bank), program | bank)

    def midi1_voice(self, group, channel):
        chance = self.chance
        opcode = chance.choice(range(NOTE_OFF, BEND + 1))
        first = chance.choice(CONTROLLERS) if opcode == CONTROL_CHANGE else chance.randrange(128)
        second = 0 if opcode in (PROGRAM_CHANGE, PRESSURE) else chance.randrange(128)
        self.one_word(2, group, opcode << 4 | channel, first, second)

    def system(self, group):
        chance = self.chance
        status = chance.choice(CLOCKS + (0xF1, 0xF2, 0xF3, 0xF6, 0xFA, 0xFB, 0xFC))
        first = chance.randrange(128) if status in (0xF1, 0xF2, 0xF3) else 0
        second = chance.randrange(128) if status == 0xF2 else 0
        self.one_word(1, group, status, first, second)

    def exclusive(self, group):
        data = self.chance.randbytes(exclusive_length(self.chance)).translate(SEVEN_BITS)
        packets = exclusive_packets(group, data)
        self.put(packets.pop())
        if not packets:
            return
        if len(self.exclusives) < MOST_OPEN_EXCLUSIVES:
            self.exclusives[group] = packets
        else:
            self.put_all(packets)

    def put_all(self, packets):
        while packets:
            self.put(packets.pop())

    def end_exclusives(self):
        for packets in self.exclusives.values():
            self.put_all(packets)


def mixed(seed, count, listed=0.0):
    made = Packets(seed, listed)
    while made.count < count:
        made.turn()
    made.end_exclusives()
    return made.written


def type2(seed, count):
    made = Packets(seed)
    chance = made.chance
    while made.count < count:
        group, channel = chance.choice(GROUPS), chance.choice(CHANNELS)
        if chance.random() < 0.6:
            status = chance.choice((0x80, 0x90)) | channel
            made.one_word(2, group, status, usual_note(chance), chance.randrange(128))
        else:
            made.midi1_voice(group, channel)
    return made.written


def unanswered(seed, count):
    made = Packets(seed)
    chance = made.chance
    while made.count < count:
        group, channel, kind = chance.choice(GROUPS), chance.choice(CHANNELS), chance.random()
        if kind < 0.62:
            made.note(group, channel)
        elif kind < 0.96:
            made.voice_message(kind, group, channel)
        elif kind < 0.975:
            made.midi1_voice(group, channel)
        elif kind < 0.99:
            made.system(group)
        else:
            made.put(struct.pack(">I", 0x00200000 | chance.getrandbits(16)))
    return made.written


class Stream:
    """A stream of MIDI 1.0 bytes while it is made."""

    def __init__(self, seed):
        self.chance = random.Random(seed)
        self.written = bytearray()
        self.running = None
        self.notes_on = []

    def put(self, *message):
        """Puts a voice message, without its status byte if it is the running status; now and then with a clock inside."""
        rest = message[1:] if message[0] == self.running else message
        for number, byte in enumerate(rest):
            if number and self.chance.random() < 0.01:
                self.written.append(0xF8)
            self.written.append(byte)
        self.running = message[0]

    def control(self, channel, index, value):
        self.put(0xB0 | channel, index, value)

    def turn(self):
        chance = self.chance
        channel = chance.choice((0,) * 12 + (1, 9))
        kind = chance.random()
        if kind < 0.64:
            self.note(channel)
        elif kind < 0.77:
            self.control(channel, chance.choice(CONTROLLERS), chance.randrange(128))
        elif kind < 0.87:
            self.put(0xE0 | channel, chance.randrange(128), chance.randrange(128))
        elif kind < 0.93:
            self.put(0xD0 | channel, chance.randrange(128))
        elif kind < 0.96:
            self.put(0xA0 | channel, chance.randrange(128), chance.randrange(128))
        elif kind < 0.97:
            self.program(channel)
        elif kind < 0.98:
            self.parameter(channel)
        elif kind < 0.996:
            self.system()
        else:
            self.exclusive()

    def note(self, channel):
        chance = self.chance
        if self.notes_on and chance.random() < 0.5:
            its_channel, note = self.notes_on.pop(chance.randrange(len(self.notes_on)))
            if chance.random() < 0.7:
                return self.put(0x90 | its_channel, note, 0)
            return self.put(0x80 | its_channel, note, chance.randrange(128))
        note = usual_note(chance)
        self.put(0x90 | channel, note, chance.randint(1, 127))
        if len(self.notes_on) < 24:
            self.notes_on.append((channel, note))

    def program(self, channel):
        chance = self.chance
        if chance.random() < 0.5:
            self.control(channel, 0, chance.randrange(128))
            self.control(channel, 32, chance.randrange(128))
        self.put(0xC0 | channel, chance.randrange(128))

    def parameter(self, channel):
        """Selects a parameter, sets it once or three times, and sometimes selects the null parameter."""
        chance = self.chance
        most, least = chance.choice(((101, 100), (99, 98)))
        self.control(channel, most, chance.randrange(127))
        self.control(channel, least, chance.randrange(128))
        for _ in range(chance.choice((1, 1, 1, 3))):
            self.control(channel, 6, chance.randrange(128))
            if chance.random() < 0.8:
                self.control(channel, 38, chance.randrange(128))
        if chance.random() < 0.4:
            self.control(channel, 101, 127)
            self.control(channel, 100, 127)

    def system(self):
        chance = self.chance
        status = chance.choice(CLOCKS + (0xF1, 0xF2, 0xF3, 0xF6))
        data_bytes = {0xF1: 1, 0xF2: 2, 0xF3: 1}.get(status, 0)
        self.written.append(status)
        self.written.extend(chance.randrange(128) for _ in range(data_bytes))
        if status < 0xF8:
            self.running = None

    def exclusive(self):
        length = exclusive_length(self.chance)
        self.written.append(0xF0)
        for _ in range(length):
            if self.chance.random() < 0.005:
                self.written.append(0xF8)
            self.written.append(self.chance.randrange(128))
        self.written.append(0xF7)
        self.running = None


def stream(seed, turns):
    made = Stream(seed)
    for _ in range(turns):
        made.turn()
    return made.written


def listed(seed, count):
    return mixed(seed, count, listed=1 / 3)


# Each recording, with what is added to the seed so that no two begin alike.
RECORDINGS = {
    "mixed.ump": (mixed, 0),
    "listed.ump": (listed, 2),
    "mixed.midi1": (stream, 3),
    "type2.ump": (type2, 4),
    "endpoint.ump": (unanswered, 5),
}


def write(folder, names, count, seed=20):
    """Writes the recordings of these names."""
    os.makedirs(folder, exist_ok=True)
    for name in names:
        make, added = RECORDINGS[name]
        with open(os.path.join(folder, name), "wb") as file:
            file.write(make(seed + added, count))


def main(words):
    if not words:
        print(__doc__.strip(), file=sys.stderr)
        return 2
    ask = argparse.ArgumentParser(description=__doc__, formatter_class=argparse.RawDescriptionHelpFormatter)
    ask.add_argument("folder", metavar="FOLDER")
    ask.add_argument("--packets", type=int, default=1_000_000)
    ask.add_argument("--seed", type=int, default=20)
    given = ask.parse_args(words)
    write(given.folder, RECORDINGS, given.packets, given.seed)
    for name in RECORDINGS:
        print(f"{name}: {os.path.getsize(os.path.join(given.folder, name))} bytes")
    return 0


if __name__ == "__main__":
    sys.exit(main(sys.argv[1:]))
