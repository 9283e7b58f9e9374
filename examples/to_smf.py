#!/usr/bin/env python3
"""to_smf.py FILE: reads a MIDI 1.0 stream from standard input and writes it as a Standard MIDI File.

A clock of the stream is a tick, 24 to a quarter note; without clocks every time is 0. System messages except exclusives have no place in
such a file, and are left out, and so is what is cut off."""
import sys


def messages(stream):
    """The messages of the stream, each with its time in clocks, and its status written out."""
    time, status, data = 0, 0, b""
    for byte in stream:
        if byte >= 0xF8:  # Real Time, which may come within a message
            time += byte == 0xF8
        elif byte == 0xF7:
            if status == 0xF0:
                yield time, b"\xF0" + data + b"\xF7"
            status = 0
        elif byte >= 0x80:
            status, data = byte, b""
        else:
            data += bytes([byte])
            if 0x80 <= status < 0xF0 and len(data) == (1 if 0xC0 <= status < 0xE0 else 2):
                yield time, bytes([status]) + data
                data = b""


def number(value):
    """A number of such a file: seven bits a byte, the highest first."""
    digits = [value & 127]
    while value := value >> 7:
        digits.insert(0, value & 127 | 128)
    return bytes(digits)


def track(stream):
    """The events of the stream, and the end of the track."""
    events, before = b"", 0
    for time, message in messages(stream):
        length = number(len(message) - 1) if message[0] == 0xF0 else b""
        events += number(time - before) + message[:1] + length + message[1:]
        before = time
    return events + b"\0\xFF\x2F\0"


def main(words):
    if len(words) != 1:
        print(__doc__, file=sys.stderr)
        return 2
    events = track(sys.stdin.buffer.read())
    with open(words[0], "wb") as file:
        file.write(b"MThd\0\0\0\6\0\0\0\1\0\x18MTrk" + len(events).to_bytes(4, "big") + events)
    return 0


if __name__ == "__main__":
    sys.exit(main(sys.argv[1:]))
