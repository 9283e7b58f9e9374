#!/usr/bin/env python3
"""faults.py PROGRAM: runs each command with each of its allocations, openings, reads and writes failing in turn, with no memory from each
allocation on, and with each read and write cut to one byte, interrupted, or taking nothing, by a library that is loaded before the program
(faults.c, built by `cc`): first with a file as standard input, then with a pipe, where what was put is written out before each read, and where
each later write fails too. Each command is tried on an input that it does wholly, and on one that it refuses after all of that. What the run
leaves is compared with the table of docs/errors.md: the exit code, the last line, and files that begin as those of the run without a fault, or
are the same. Then each place that a command writes to is a full disk, and a pipe that nobody reads, again with a file and with a pipe as
standard input. Then come the other ends of that table, arguments that aren't UTF-8 among them, and standard streams that are closed. It isn't
part of the gate. The exit code is how many differ: each command counts as one, and so do the other ends together."""
import itertools
import os
import subprocess
import sys
import tempfile

HERE = os.path.dirname(os.path.abspath(__file__))
TOP = os.path.dirname(HERE)
EXIT_CODES = {"read": 2, "lane": 3, "output": 4, "note": 5, "setup": 6, "memory": 10}
LAST_LINES = {2: "read failed\n", 3: "lane write failed\n", 4: "output write failed\n", 6: "setup read failed\n", 10: "no memory\n"}


def example(name):
    with open(f"{TOP}/examples/{name}", "rb") as it:
        return it.read()


def words(text):
    return bytes.fromhex(text)


RECORDING = example("mixed.ump") * 400
STREAM = example("old-keyboard.bytes") * 500
SETUP = f"{TOP}/examples/endpoint.toml"
CLIP = b"SMF2CLIP" + words("00300060 F0200000 00000000 00000000 00000000") + words("00400030 40903C00 C9240000") * 300 \
    + words("F0210000 00000000 00000000 00000000")
DATA8 = words("50120000 B0B1A0A1 AABB0000 00000000") * 300
COMMANDS = [
    (["translate", "down", "--folder", "F"], RECORDING),
    (["translate", "down", "--folder", "F", "--compact", "--paired"], RECORDING),
    (["translate", "up"], STREAM),
    (["translate", "back"], STREAM),
    (["show"], RECORDING),
    (["show", "--state"], RECORDING),
    (["show", "--bytes"], STREAM),
    (["show", "--bytes", "--state"], STREAM),
    (["endpoint", SETUP], example("peer.ump") * 300),
    (["usb", "split", "--folder", "F"], words("09903C64 19914050 04F07E7F 0FF80000 070601F7 1CC10500 00000000") * 400),
    (["usb", "pack"], STREAM),
    (["sysex8", "--folder", "F"], DATA8),
    (["rehearse", SETUP], words("000000 010000 020000 000002 010001 020001 000003 010002 020001")),
    (["clip"], CLIP),
    (["selftest", "7", "--packets", "50"], b""),
]
# The same, refused at the end of a shorter input.
FEW, FEW_BYTES, SENT_BEFORE = example("mixed.ump") * 60, example("old-keyboard.bytes") * 60, words("09903C64 00000000") * 400
HIGH_BIT, INCREMENT, TOO_LONG = words("20903C80"), words("B06000"), b"\xf0" + bytes(1000)
REFUSED = [
    (["translate", "down", "--folder", "F"], FEW + HIGH_BIT),
    (["translate", "up"], FEW_BYTES + INCREMENT),
    (["translate", "back"], FEW_BYTES + INCREMENT),
    (["show"], FEW + HIGH_BIT),
    (["show", "--state"], FEW + HIGH_BIT),
    (["show", "--bytes", "--room", "999"], FEW_BYTES + TOO_LONG),
    (["endpoint", SETUP], example("peer.ump") * 60 + HIGH_BIT),
    (["usb", "split", "--folder", "F"], SENT_BEFORE + words("0990")),
    (["usb", "pack", "--room", "999"], FEW_BYTES + TOO_LONG),
    (["sysex8", "--folder", "F"], DATA8 + HIGH_BIT),
    (["rehearse", SETUP], words("000000 010000 020000 030000")),
    (["clip"], CLIP + HIGH_BIT),
]

USAGE = b"usage: translate, show, endpoint or selftest\n"
SETUPS = {"no-toml": b"hint =\n", "no-text": b"# \xff\n", "rule-1": b"endpoint = 1\n", "too-long": b"#" * 65537}
ENDS = [
    (["show"], words("20903C80"), 1, b"refused HighBit at 0\n"),
    (["translate", "sideways"], b"", 7, USAGE),
    (["show", b"\xff"], b"", 7, USAGE),
    ([], b"", 7, USAGE),
    (["endpoint", "no-toml"], b"", 8, b"setup is not TOML\n"),
    (["endpoint", "no-text"], b"", 8, b"setup is not TOML\n"),
    (["endpoint", "rule-1"], b"", 9, b"setup field 1\n"),
    (["endpoint", "too-long"], b"", 9, b"setup field 0\n"),
]

# A standard stream that is closed, and the exit code: it fails when it is read or written, and no file stands in its place.
CLOSED = [
    (["translate", "down", "--folder", "F"], example("mixed.ump"), 0, 2),
    (["translate", "down", "--folder", "F"], example("mixed.ump"), 1, 0),
    (["translate", "down", "--folder", "F"], example("mixed.ump"), 2, 5),
    (["translate", "up"], example("old-keyboard.bytes"), 0, 2),
    (["translate", "up"], example("old-keyboard.bytes"), 1, 4),
    (["translate", "up"], example("old-keyboard.bytes"), 2, 5),
    (["endpoint", SETUP], example("peer.ump"), 0, 2),
]


class Left:
    """What a run leaves: the exit code, the bytes of each lane, of standard output and of standard error."""

    def __init__(self, room, program, library, arguments, given, fault, closed=None, piped=False, unwritable=None):
        folder, counts = f"{room}/F", f"{room}/counts"
        subprocess.run(["rm", "-rf", folder, counts], check=True)
        os.mkdir(folder)
        with open(f"{room}/given", "wb") as it:
            it.write(given)
        env = {"LD_PRELOAD": library, "FAULT": fault, "COUNTS": counts}
        with open(f"{room}/given", "rb") as source, open(f"{room}/output", "wb") as output, open(f"{room}/notes", "wb") as notes:
            close = None if closed is None else lambda: os.close(closed)
            how = {"input": given} if piped else {"stdin": source}
            how |= {"stdout": output, "stderr": notes, "preexec_fn": close}
            if unwritable:
                how |= self.not_written(folder, *unwritable)
            ran = subprocess.run([program, *arguments], cwd=room, env=env, check=False, **how)
            for it in how.get("pass_fds", ()):
                os.close(it)
        self.code = ran.returncode
        with open(counts, encoding="ascii") as it:
            self.calls, self.met = map(int, it.read().split())
        self.files = {}
        for at in sorted(it for it in os.listdir(folder) if not os.path.islink(f"{folder}/{it}")):
            with open(f"{folder}/{at}", "rb") as it:
                self.files[at] = it.read()
        for at in ("output", "notes"):
            with open(f"{room}/{at}", "rb") as it:
                self.files[at] = it.read()

    @staticmethod
    def not_written(folder, place, is_full):
        """The place is a full disk, or a pipe that nobody reads."""
        if is_full:
            into = os.open("/dev/full", os.O_WRONLY)
        else:
            reader, into = os.pipe()
            os.close(reader)
        stream = {"output": "stdout", "notes": "stderr"}.get(place)
        if not stream:
            os.symlink("/dev/full" if is_full else f"/proc/self/fd/{into}", f"{folder}/{place}")
        return {stream: into, "pass_fds": [into]} if stream else {"pass_fds": [into]}


def object_of(call, met):
    """The object whose call failed."""
    if call == "write":
        return {1: "output", 2: "note"}.get(met, "lane")
    return {"alloc": "memory", "read": "read", "open": "lane"}[call]


def differs(whole, left, call, becomes, arguments):
    """What differs from the table of ends, or None. A vector that gets no memory to grow by half asks for less, and may get it."""
    is_same = (left.code, left.files) == (whole.code, whole.files)
    if becomes in ("short", "again"):
        return None if is_same else "not as without a fault"
    if is_same and becomes != "rest" and call == "alloc":
        return None
    if call == "write" and becomes == "rest":
        return None if left.code in (EXIT_CODES["lane"], EXIT_CODES["output"], EXIT_CODES["note"]) else f"exit code {left.code}"
    wanted = EXIT_CODES[object_of(call, left.met)]
    if call in ("open", "read") and "F" not in arguments and left.code == EXIT_CODES["setup"]:
        wanted = EXIT_CODES["setup"]
    if why := ends_otherwise_than(whole, left, wanted):
        return why
    if call == "alloc" and "--state" not in arguments and any(kept_of(left, wanted).values()):
        return "something was put, though there was no memory"
    return None


def kept_of(left, wanted):
    """What each file holds, without the last line of this exit code."""
    notes, last = left.files["notes"], LAST_LINES.get(wanted, "").encode()
    return {**left.files, "notes": notes[: len(notes) - len(last)]}


def ends_otherwise_than(whole, left, wanted):
    """What differs from an end with this exit code, or None: the last line, and files that begin as those of the run without a fault."""
    if left.code != wanted:
        return f"exit code {left.code} for {wanted}"
    last = LAST_LINES.get(wanted, "").encode()
    notes = left.files["notes"]
    if not notes.endswith(last):
        return f"last line {notes[-40:]!r}"
    for name, held in kept_of(left, wanted).items():
        if not whole.files.get(name, b"").startswith(held):
            return f"{name} holds other bytes"
    return None


def check(room, program, library, arguments, given, piped):
    """Tries each fault of a command; says how many there were, and what differs."""
    whole = Left(room, program, library, arguments, given, "none:0:none")
    left = Left(room, program, library, arguments, given, "none:0:none", piped=piped)
    tried, wrong = {}, [] if (left.code, left.files) == (whole.code, whole.files) else ["a pipe leaves something else than a file"]
    writes = ["fail", "none", "short", "again"] + ["rest"] * piped
    for call, ends in (("alloc", ["fail", "rest"]), ("open", ["fail"]), ("read", ["fail", "short", "again"]), ("write", writes)):
        for becomes in ends:
            for number in range(1, 100000):
                left = Left(room, program, library, arguments, given, f"{call}:{number}:{becomes}", piped=piped)
                if left.met < 0:
                    break
                tried[call] = tried.get(call, 0) + 1
                if why := differs(whole, left, call, becomes, arguments):
                    wrong.append(f"{call} {number} {becomes}: {why}")
    tried["place"], more = check_places(room, program, library, arguments, given, piped, whole)
    return tried, wrong + more


def check_places(room, program, library, arguments, given, piped, whole):
    """Tries each place that a command writes to as one that can't be written; says how many there were, and what differs."""
    places, wrong = [it for it, held in whole.files.items() if held], []
    for place, is_full in itertools.product(places, (True, False)):
        left = Left(room, program, library, arguments, given, "none:0:none", piped=piped, unwritable=(place, is_full))
        wanted = {"output": 4, "notes": 5}.get(place, 3)
        if why := ends_otherwise_than(whole, left, wanted):
            wrong.append(f"{place} {'on a full disk' if is_full else 'into a pipe that nobody reads'}: {why}")
    return 2 * len(places), wrong


def ends_otherwise(room, program, library):
    """The other ends that differ from the table."""
    for name, text in SETUPS.items():
        with open(f"{room}/{name}", "wb") as it:
            it.write(text)
    for arguments, given, code, last in ENDS:
        left = Left(room, program, library, arguments, given, "none:0:none")
        if (left.code, left.files) != (code, {"output": b"", "notes": last}):
            yield f"{arguments}: exit code {left.code}, {left.files}"
    for arguments, given, closed, code in CLOSED:
        whole = Left(room, program, library, arguments, given, "none:0:none")
        left = Left(room, program, library, arguments, given, "none:0:none", closed)
        held = {name: text for name, text in left.files.items() if name != "notes"}
        if left.code != code or not all(whole.files.get(name, b"").startswith(text) for name, text in held.items()):
            yield f"{arguments} with {closed} closed: exit code {left.code}, {left.files}"


def main(program):
    differ = 0
    with tempfile.TemporaryDirectory() as room:
        library = f"{room}/faults.so"
        subprocess.run(["cc", "-shared", "-fPIC", "-O1", "-o", library, f"{HERE}/faults.c", "-ldl"], check=True)
        for piped, (arguments, given) in itertools.product((False, True), COMMANDS + REFUSED):
            tried, wrong = check(room, program, library, arguments, given, piped)
            told = ", ".join(f"{count} of {call}" for call, count in tried.items())
            name = " ".join(os.path.basename(it) for it in arguments) + ", refused" * ((arguments, given) in REFUSED)
            print(f"{name}{', from a pipe' * piped}: {told}", *wrong, sep="\n  ", flush=True)
            differ += bool(wrong)
        wrong = list(ends_otherwise(room, program, library))
        print(f"other ends: {len(ENDS)}, with a stream closed: {len(CLOSED)}", *wrong, sep="\n  ")
        differ += bool(wrong)
    return differ


if __name__ == "__main__":
    if len(sys.argv) != 2:
        print(__doc__, file=sys.stderr)
        sys.exit(2)
    sys.exit(main(os.path.abspath(sys.argv[1])))
