#!/usr/bin/env python3
"""from_smf.py FILE: writes the messages of a Standard MIDI File as a MIDI 1.0 stream to standard output, without their times.

All tracks are merged in the order of their times, which `.play()` after `MidiFile(..)` would keep. It leaves out meta events, and data
increments and decrements, which `translate` refuses. If the file can't be read, the exit code is 1. It needs mido:
https://mido.readthedocs.io."""
import sys


def main(words):
    if len(words) != 1:
        print(__doc__, file=sys.stderr)
        return 2
    import mido

    try:
        file = mido.MidiFile(words[0])
    except Exception as error:  # (mido raises errors of several kinds at a file that is no Standard MIDI File)
        print(f"from_smf.py: {words[0]} can't be read as a Standard MIDI File: {str(error) or 'it ends too early'}", file=sys.stderr)
        return 1
    for message in file:
        if not message.is_meta and not (message.type == "control_change" and message.control in (96, 97)):
            sys.stdout.buffer.write(message.bin())
            sys.stdout.flush()
    return 0


if __name__ == "__main__":
    sys.exit(main(sys.argv[1:]))
