#!/usr/bin/env python3
"""translations.py: prints a few translations, with the package of bindings/python: packets down, bytes up, a stream's messages and USB-MIDI
events, exclusives of both kinds, the state that a stream leaves, and scaling."""
from larboardyuzu import Down, Parser, Refused, State, Sysex8, Up, Usb, exclusive_packets, scale_down, scale_up, sysex8_packets


def hexadecimal(data):
    return data.hex(" ").upper()


def words_in_hexadecimal(words):
    return " ".join(f"{word:08X}" for word in words)


def print_packets():
    with Down() as down:
        piece = down.packet([0x40903C00, 0xC9240000])
        print(f"group {piece.lane}: {hexadecimal(piece.data)}")
        piece = down.packet([0x40903C01, 0xC9240007], 8)
        print(f"group {piece.lane}: {hexadecimal(piece.data)}, {piece.line.kind.name} at {piece.line.offset}")
        try:
            down.packet([0x20B06001], 16)
        except Refused as refused:
            print(f"refused: {refused}")


def print_streams():
    """A note and an exclusive; the messages of a stream, with a clock in the middle of one under running status; and USB-MIDI events."""
    with Up() as up:
        for raised in up.bytes(bytes.fromhex("90 3C 64 F0 01 02 03 04 05 06 07 F7")).items:
            print(f"{words_in_hexadecimal(raised.words)}, by the byte at {raised.offset}")
    with Parser() as parser, Usb(cable=3) as usb:
        for message in parser.bytes(bytes.fromhex("90 3C 64 3E F8 64")).items:
            print(f"message {hexadecimal(message.data)}")
        for message in usb.bytes(bytes.fromhex("F0 01 02 03 04 F7")).items:
            print(f"events {hexadecimal(message.data)}")


def print_exclusives():
    for packet in exclusive_packets(0, bytes([1, 2, 3, 4, 5, 6, 7])):
        print(words_in_hexadecimal(packet))
    with Sysex8() as sysex8:
        for packet in sysex8_packets(0, 1, bytes(range(0xA0, 0xAE))):
            part = sysex8.packet(packet)
        print(f"stream {part.stream}: {hexadecimal(part.data)}")


def print_state():
    """A note, its end, the volume, a program of bank 1/2, and a clock: by channel, and then those of no channel."""
    with State(of_bytes=True) as state:
        state.bytes(bytes.fromhex("90 3C 64 80 3C 40 B0 07 50 B1 00 01 B1 20 02 C1 05 F8"))
        for channel in (*range(16), None):
            for fact in state.facts(0, channel):
                if channel is None:
                    print(f"{fact.kind.name}: {fact.count}")
                else:
                    print(f"channel {channel}: {fact.kind.name} {fact.number}, value {fact.value}, bank {fact.bank}")


def main():
    print_packets()
    print_streams()
    print_exclusives()
    print_state()
    print(f"velocity {scale_up(100, 7, 16)} and back {scale_down(51492, 16, 7)}")


if __name__ == "__main__":
    main()
