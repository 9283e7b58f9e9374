#!/usr/bin/env python3
"""blocks.py < FILE: packets from standard input to MIDI 1.0 bytes, a block at a time, with the package of bindings/python. What a reader of a
pipe or of a device file needs: bytes that end within a packet, and packets that are refused.

It prints a line for each piece, each line of the listing and each refusal."""
import sys

from larboardyuzu import Down, packets_in


def translate(down, words, offset):
    """Takes the words of whole packets, and prints what becomes of them. offset is that of the first."""
    words = memoryview(words)
    while words:
        block = down.packets(words, offset)
        for piece in block.items:
            if piece.data:
                print(f"group {piece.lane}: {piece.data.hex(' ').upper()}")
            if piece.line:
                print(f"{piece.line.kind.name} at {piece.line.offset}")
        if block.error:
            print(block.error)
        words, offset = words[block.taken :], offset + 4 * block.taken


def main():
    data, offset = b"", 0
    with Down() as down:
        while more := sys.stdin.buffer.read1(4096):
            data += more
            words, taken = packets_in(data)
            translate(down, words, offset)
            data, offset = data[taken:], offset + taken
    if data:
        print(f"{len(data)} bytes at {offset} are no whole packet")


if __name__ == "__main__":
    main()
