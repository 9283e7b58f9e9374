#!/usr/bin/env python3
"""recording.py < FILE: a whole recording of packets from standard input to MIDI 1.0 bytes, with `translate` of the package of bindings/python,
which makes no object for a packet.

It prints the bytes of each group that has some, the lines of the listing, and the packets that are refused."""
import sys

from larboardyuzu import Down, packets_in


def main():
    data = sys.stdin.buffer.read()
    words, taken = packets_in(data)
    with Down() as down:
        found = down.translate(words)
    for group, stream in enumerate(found.lanes):
        if stream:
            print(f"group {group}: {stream.hex(' ').upper()}")
    for line in found.lines:
        print(f"{line.offset} {'-' if line.group is None else line.group} {line.kind.word}")
    for refused in found.refused:
        print(f"refused: {refused}")
    if taken < len(data):
        print(f"{len(data) - taken} bytes at {taken} are no whole packet")


if __name__ == "__main__":
    main()
