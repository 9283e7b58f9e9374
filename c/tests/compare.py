#!/usr/bin/env python3
"""compare.py PROGRAM C_PROGRAM [--seconds S] [--seed N] [--room FOLDER] [--input FILE..] [--no-python]: compares the program with the one in C over the library, and
with the module in Python, on generated input: what is written to each lane, to standard output and to standard error, and the exit code.

First some input of each kind, then more of it for S seconds, each with the next seed. A FILE is taken as a recording (.ump) or a stream
(.midi1), by each command that takes such input. The first difference is told with the seed, and ends it with 1; the input is kept."""
import argparse
import os
import random
import re
import subprocess
import sys
import time

HERE = os.path.dirname(os.path.abspath(__file__))
sys.path.insert(0, HERE)
sys.path.insert(0, os.path.join(HERE, "..", "..", "bindings", "python"))
import inputs  # noqa: E402


class Difference(Exception):
    pass


class Bench:
    """Where the programs run, and what they say of an input."""

    def __init__(self, program, c_program, room):
        self.programs = [os.path.abspath(program), os.path.abspath(c_program)]
        self.room = os.path.abspath(room)
        self.runs = 0
        for name in ("program", "c"):
            os.makedirs(os.path.join(self.room, f"lanes-{name}"), exist_ok=True)
        with open(os.path.join(self.room, "setup.toml"), "w", encoding="utf-8") as it:
            it.write(inputs.SETUP)

    def run(self, which, words, data):
        """Exit code, standard output, standard error and lanes."""
        folder = os.path.join(self.room, f"lanes-{('program', 'c')[which]}")
        for name in os.listdir(folder):
            os.remove(os.path.join(folder, name))
        words = [folder if it == "FOLDER" else it for it in words]
        ran = subprocess.run([self.programs[which], *words], cwd=self.room, input=data, capture_output=True, check=False)
        return ran.returncode, ran.stdout, ran.stderr, lanes_of(folder)

    def compare(self, words, data, c_words=None, seen=lambda said: said):
        """Compares what both say, or what `seen` leaves of it."""
        self.runs += 1
        said = [seen(self.run(0, words, data)), seen(self.run(1, c_words or words, data))]
        self.must_agree(words, data, *said)

    def must_agree(self, words, data, wanted, got):
        for name, one, other in zip(("exit code", "output", "errors", "lanes"), wanted, got):
            if one != other:
                with open(os.path.join(self.room, "differs"), "wb") as it:
                    it.write(data)
                raise Difference(f"{' '.join(words)}: {name}\n  {one!r:.600}\n  {other!r:.600}")


def lanes_of(folder):
    found = {}
    for name in sorted(os.listdir(folder)):
        with open(os.path.join(folder, name), "rb") as it:
            found[name] = it.read()
    return found


def state_seen(said):
    """The lines of the state, which come if nothing is refused."""
    code, output, errors, lanes = said
    lines = [it for it in output.split(b"\n") if it.startswith(b"state")]
    return code, lines if code == 0 else [], errors, lanes


def endpoint_seen(said):
    """All but the lines of blocks without a MUID, which the call doesn't tell from those without MIDI-CI."""
    code, output, errors, lanes = said
    return code, output, re.sub(rb"block \d+ silent\n", b"", errors), lanes


def lines_seen(said):
    """The lines of packets, without those of joined texts."""
    code, output, errors, lanes = said
    return code, [it for it in output.split(b"\n") if not it.startswith(b"text")], errors, lanes


def compare_both(bench, words, data, c_words=None, seen=lambda said: said):
    """Compares the block calls, and the calls for one packet or byte."""
    bench.compare(words, data, c_words, seen)
    bench.compare(words, data, [*(c_words or words), "--single"], seen)


def compare_recording(bench, r, data, little):
    order = ["--little"] if little else []
    room = ["--room", str(r.choice((6, 13, 200, 1048576)))]
    for style in ([], ["--compact"], ["--paired"], ["--compact", "--paired"]):
        compare_both(bench, ["translate", "down", "--folder", "FOLDER", *order, *style, *room], data)
    room8 = ["--room", str(r.choice((13, 40, 1048576))), "--streams", str(r.choice((1, 2, 64)))]
    compare_both(bench, ["sysex8", "--folder", "FOLDER", *order, *room8], data)
    compare_both(bench, ["endpoint", "setup.toml", *order, *room], data, seen=endpoint_seen)
    bench.compare(["show", *order], data, ["lines", *order], lines_seen)
    compare_both(bench, ["show", "--state", *order, *room], data, ["state", *order, *room], state_seen)


def compare_stream(bench, r, data):
    room = ["--room", str(r.choice((6, 12, 13, 100, 1048576)))]
    for style in ([], ["--paired"]):
        compare_both(bench, ["translate", "up", "--group", str(r.randrange(16)), *style, *room], data)
    compare_both(bench, ["usb", "pack", "--cable", str(r.randrange(16)), *room], data)
    bench.compare(["usb", "split", "--folder", "FOLDER"], data)
    compare_both(bench, ["show", "--bytes", "--state", *room], data, ["state", "--bytes", *room], state_seen)


def compare_seed(bench, seed, scale):
    r = random.Random(seed)
    little = r.random() < 0.3
    for words in (inputs.packets(r, 60 * scale), inputs.packets(r, 40 * scale, peer=True)):
        data = inputs.words_to_bytes(words, little)
        compare_recording(bench, r, data[: len(data) - (r.randrange(8) if r.random() < 0.1 else 0)], little)
    compare_stream(bench, r, inputs.midi1(r, 200 * scale))
    compare_stream(bench, r, inputs.random_bytes(r, 60 * scale))
    bench.compare(["usb", "split", "--folder", "FOLDER"], inputs.events(r, 50 * scale)[: 200 * scale - r.choice((0, 0, 0, 1))])


# ---- The module in Python.


def placed(packets):
    """Each packet with the word at which it begins."""
    at = 0
    for packet in packets:
        yield at, packet
        at += len(packet)


def text_of(line):
    if line is None:
        return ""
    return f"{line.offset} {'-' if line.group is None else line.group} {line.kind.name.lower().replace('_', '-')}\n"


def refused_text(refused, offset):
    return f"refused {refused.status.name.title().replace('_', '')} at {offset}\n"


def python_down(module, words, compact, paired):
    lanes, errors = [b""] * 16, ""
    with module.Down(1024, compact=compact, paired=paired) as down:
        for at, packet in placed(module.packets_of(words)):
            try:
                piece = down.packet(packet, 4 * at)
            except module.Refused as refused:
                return 1, b"", errors + refused_text(refused, 4 * at), lanes
            lanes[piece.lane] += piece.data
            errors += text_of(piece.line)
        for group in range(16):
            if down.begun(group) is not None:
                errors += f"{down.begun(group)} {group} open-exclusive\n"
    return 0, b"", errors, lanes


def python_up(module, data, group, paired):
    output, errors = b"", ""
    with module.Up(group, 1024, paired=paired) as up:
        for offset, byte in enumerate(data):
            try:
                raised = up.byte(byte, offset)
            except module.Refused as refused:
                return 1, output, errors + refused_text(refused, offset), {}
            output += inputs.words_to_bytes(raised.words)
            errors += "".join(map(text_of, raised.lines))
        errors += text_of(up.end())
    return 0, output, errors, {}


def python_endpoint(module, words):
    output, errors = b"", ""
    with module.Endpoint(inputs.SETUP.encode(), 1024) as endpoint:
        for at, packet in placed(module.packets_of(words)):
            try:
                replies = endpoint.packet(packet, 4 * at)
            except module.Refused as refused:
                return 1, output, errors + refused_text(refused, 4 * at), {}
            output += inputs.words_to_bytes(replies.words)
            if replies.heard:
                errors += text_of(module.Line(4 * at, replies.group, replies.heard))
            errors += text_of(replies.line)
        for group in range(16):
            if endpoint.begun(group) is not None:
                errors += f"{endpoint.begun(group)} {group} open-exclusive\n"
        errors += f"protocol {endpoint.protocol}\n"
        for block in range(2):
            muid = endpoint.muid(block)
            errors += "" if muid is None else f"block {block} muid {muid}\n"
        for it in endpoint.profiles():
            place = "function" if it.group is None else f"group {it.group}" if it.channel is None else f"channel {it.group} {it.channel}"
            errors += f"profile {it.block} {place} {it.id.hex().upper()} {'on' if it.is_on else 'off'}\n"
    return 0, output, errors, {}


def whole_packets(words):
    """The words without a last packet that is cut short."""
    at = 0
    while at < len(words) and at + inputs.WORDS[words[at] >> 28] <= len(words):
        at += inputs.WORDS[words[at] >> 28]
    return words[:at]


def compare_python(bench, seeds):
    try:
        import larboardyuzu as module
    except OSError as error:
        raise Difference(f"the module in Python: {error}") from error
    room = ["--room", "1024"]
    for seed in range(seeds):
        r = random.Random(seed)
        words, peer = whole_packets(inputs.packets(r, 200)), whole_packets(inputs.packets(r, 200, peer=True))
        stream = inputs.midi1(r, 500)
        for compact, paired in ((False, False), (True, True)):
            command = ["translate", "down", "--folder", "FOLDER", *room] + ["--compact"] * compact + ["--paired"] * paired
            code, output, errors, lanes = bench.run(0, command, inputs.words_to_bytes(words))
            got = python_down(module, words, compact, paired)
            bench.must_agree(command, b"", (code, output, errors.decode(), list(lanes.values())), got)
        command = ["translate", "up", "--group", "5", "--paired", *room]
        code, output, errors, _ = bench.run(0, command, stream)
        bench.must_agree(command, stream, (code, output, errors.decode(), {}), python_up(module, stream, 5, True))
        command = ["endpoint", "setup.toml", *room]
        code, output, errors, _ = endpoint_seen(bench.run(0, command, inputs.words_to_bytes(peer)))
        bench.must_agree(command, b"", (code, output, errors.decode(), {}), python_endpoint(module, peer))
        bench.runs += 4


def main():
    ask = argparse.ArgumentParser(description=__doc__, formatter_class=argparse.RawDescriptionHelpFormatter)
    ask.add_argument("program")
    ask.add_argument("c_program")
    ask.add_argument("--seconds", type=float, default=4)
    ask.add_argument("--seed", type=int, default=1000)
    ask.add_argument("--room", default=".")
    ask.add_argument("--input", nargs="*", default=[])
    ask.add_argument("--no-python", action="store_true", help="leave out the module in Python")
    given = ask.parse_args()
    bench = Bench(given.program, given.c_program, given.room)
    try:
        for path in given.input:
            with open(path, "rb") as it:
                data = it.read()
            if path.endswith(".ump"):
                compare_recording(bench, random.Random(0), data, False)
            else:
                compare_stream(bench, random.Random(0), data)
            print(f"program: {os.path.basename(path)} agrees")
        seed = given.seed
        compare_seed(bench, 0, 20)
        if not given.no_python:
            compare_python(bench, 5)
        end = time.monotonic() + given.seconds
        while time.monotonic() < end:
            compare_seed(bench, seed, random.Random(seed).choice((1, 1, 5)))
            seed += 1
    except Difference as difference:
        print(f"program: it differs, with seed {seed if 'seed' in dir() else 0}: {difference}")
        return 1
    print(f"program: {bench.runs} runs agree, {seed - given.seed} seeds")
    return 0


if __name__ == "__main__":
    sys.exit(main())
