#!/usr/bin/env python3
"""talk.py PROGRAM: holds conversations with the program over pipes that stay open. What a command puts has to be there before its input
ends, each answer within a second. Every command is tried, to its end and ended by Ctrl-C while it waits; then 10,000 messages without a
wait, a peer that reads slowly, and peers that close an end. Then what a command puts of a message can't be written, on a full disk or into a
pipe that nobody reads, and more messages follow, or one that is refused: the run ends by that fault, at most one message later. The exit code
is 1 if anything fails."""
import os
import pty
import selectors
import signal
import socket
import struct
import subprocess
import sys
import tempfile
import threading
import time
import tty

TOP = os.path.dirname(os.path.dirname(os.path.abspath(__file__)))
SETUP = f"{TOP}/examples/endpoint.toml"


def words(text):
    return bytes.fromhex(text)


def little(packets):
    return b"".join(packets[at: at + 4][::-1] for at in range(0, len(packets), 4))


def exclusive(data):
    """The packets of group 0 of an exclusive with more than six bytes between F0 and F7: a start, continues and an end."""
    parts = [data[at: at + 6] for at in range(0, len(data), 6)]
    forms = [1, *[2] * (len(parts) - 2), 3]
    return b"".join(bytes([0x30, form << 4 | len(part)]) + part.ljust(6, b"\0") for form, part in zip(forms, parts))


DISCOVERY = words("F0000101 0000001F 00000000 00000000")
REPLIES = words("F0010101 81000300 00000000 00000000 F0020000 007D0000 01000200 01000000 F4034465 6D6F2045 6E64706F 696E7420"
                "FC035800 00000000 00000000 00000000 F004534E 2D303030 31000000 00000000 F0060200 00000000 00000000 00000000")
NOTE = words("40903C00 C9240000")
NOTE_LINE = "40903C00 C9240000 note-on group=0 channel=0 note=60 velocity=51492 type=0 attribute=0\n"
UTILITY = words("00200010")
# MIDI-CI: an inquiry of MUID 5 to all, and the reply of MUID 19088743 to it, with the setup's identity, profiles, 2^20 bytes, and block 0.
ASKED = exclusive(words("7E7F0D7002 05000000 7F7F7F7F 7D0000 0100 0200 01000000 04 00400000 00"))
TOLD = exclusive(words("7E7F0D7102 670A0D09 05000000 7D0000 0100 0200 01000000 04 00004000 00 00"))
CLIP = b"SMF2CLIP" + words("00300060 F0200000 00000000 00000000 00000000 00400030") + NOTE
STATE = b"protocol 2\nblock 0 muid 19088743\nprofile 0 channel 0 2 7E00010100 off\n"
READ_FAILED = b"0 - answered\nread failed\n"
F0 = "F/group-00.midi1"
PIECE = words("903C64")
# The words of a command; what is said, and then what each place must hold in all so far, where nothing is named as much as before; the exit
# code at the end.
CASES = [
    (["endpoint", SETUP], [(DISCOVERY, {"output": REPLIES, "notes": b"0 - answered\n"}),
                           (DISCOVERY[:6], {}), (DISCOVERY[6:], {"output": REPLIES * 2, "notes": b"0 - answered\n16 - answered\n"})], 0),
    (["endpoint", SETUP, "--little"], [(little(DISCOVERY), {"output": little(REPLIES), "notes": b"0 - answered\n"})], 0),
    (["endpoint", SETUP], [(ASKED[:24], {}), (ASKED[24:], {"output": TOLD, "notes": b"32 0 answered\n"}),
                           (ASKED, {"output": TOLD * 2, "notes": b"32 0 answered\n72 0 answered\n"})], 0),
    (["translate", "down", "--folder", "F"], [(NOTE, {F0: PIECE}), (NOTE[:5], {}),
                                              (NOTE[5:] + UTILITY, {F0: PIECE * 2, "notes": b"16 - utility\n"})], 0),
    (["translate", "down", "--folder", "F", "--compact"], [(NOTE, {F0: PIECE}), (NOTE, {F0: PIECE + words("3C64")})], 0),
    (["translate", "down", "--folder", "F"], [(NOTE * 512, {F0: PIECE * 512}), (NOTE * 600, {F0: PIECE * 1112})], 0),
    (["translate", "down", "--folder", "F", "--little"], [(little(NOTE), {F0: PIECE})], 0),
    (["translate", "up"], [(PIECE[:2], {}), (PIECE[2:], {"output": NOTE}),
                           (words("F8F7"), {"output": NOTE + words("10F80000"), "notes": b"4 0 stray\n"})], 0),
    (["translate", "up", "--little"], [(PIECE, {"output": little(NOTE)})], 0),
    (["translate", "back"], [(PIECE[:1], {}), (PIECE[1:], {"output": PIECE})], 0),
    (["show"], [(NOTE[:7], {}), (NOTE[7:], {"output": f"0 {NOTE_LINE}".encode()})], 0),
    (["show", "--little"], [(little(NOTE), {"output": f"0 {NOTE_LINE}".encode()})], 0),
    (["show", "--bytes"], [(PIECE[:2], {}), (PIECE[2:], {"output": b"2 m1-note-on channel=0 note=60 velocity=100\n"})], 0),
    (["usb", "pack"], [(PIECE[:2], {}), (PIECE[2:], {"output": words("09903C64")})], 0),
    (["usb", "split", "--folder", "F"], [(words("0990"), {}), (words("3C64"), {F0: PIECE})], 0),
    (["sysex8", "--folder", "F"], [(words("500307AA BB000000 00000000"), {}),
                                   (words("00000000"), {F0: words("AABB"), "notes": b"0 0 sysex8 7 2\n"})], 0),
    (["clip"], [(CLIP[:30], {"output": b"resolution 96\n"}), (CLIP[30:], {"output": f"resolution 96\n48 32 {NOTE_LINE}".encode()})], 1),
    (["rehearse", SETUP], [(words("0000"), {}), (words("00"), {"output": b"0 asked\n"})], 0),
]

STRAY = words("F7")
TOO_LONG = words("F0010203040506")
HIGH_BIT = words("20903C80")
INCREMENT = words("B06000")
START_OF_CLIP = b"SMF2CLIP" + words("00300060 F0200000 00000000 00000000 00000000")
JOINED8 = words("500307AA BB000000 00000000 00000000")
# The words of a command; the place that can't be written; two messages of which each puts something there, and one that is refused; and the
# last line of a refusal right after the first message.
UNWRITTEN = [
    (["endpoint", SETUP], "output", DISCOVERY, DISCOVERY, HIGH_BIT, "refused HighBit at 16"),
    (["endpoint", SETUP], "notes", DISCOVERY, DISCOVERY, HIGH_BIT, "refused HighBit at 16"),
    (["translate", "down", "--folder", "F"], F0, NOTE, NOTE, HIGH_BIT, "refused HighBit at 8"),
    (["translate", "down", "--folder", "F"], F0, NOTE, words("41903C00 C9240000"), HIGH_BIT, "refused HighBit at 8"),
    (["translate", "down", "--folder", "F"], "notes", UTILITY, UTILITY, HIGH_BIT, "refused HighBit at 4"),
    (["translate", "up"], "output", PIECE, PIECE, INCREMENT, "refused DataIncrement at 5"),
    (["translate", "up"], "notes", STRAY, STRAY, INCREMENT, "refused DataIncrement at 3"),
    (["translate", "back"], "output", PIECE, PIECE, INCREMENT, "refused DataIncrement at 5"),
    (["translate", "back"], "notes", STRAY, STRAY, INCREMENT, "refused DataIncrement at 3"),
    (["show"], "output", NOTE, NOTE, HIGH_BIT, "refused HighBit at 8"),
    (["show", "--bytes", "--room", "6"], "output", PIECE, PIECE, TOO_LONG + b"\x07", "refused ExclusiveTooLong at 10"),
    (["usb", "pack", "--room", "6"], "output", PIECE, PIECE, TOO_LONG + b"\x07", "refused ExclusiveTooLong at 10"),
    (["usb", "pack", "--room", "6"], "notes", STRAY, STRAY, TOO_LONG + b"\x07", "refused ExclusiveTooLong at 8"),
    (["usb", "split", "--folder", "F"], F0, words("09903C64"), words("09903C64"), words("0990"), "refused Truncated at 4"),
    (["usb", "split", "--folder", "F"], "notes", words("00000000"), words("00000000"), words("0990"), "refused Truncated at 4"),
    (["sysex8", "--folder", "F"], F0, JOINED8, JOINED8, HIGH_BIT, "refused HighBit at 16"),
    (["sysex8", "--folder", "F"], "notes", JOINED8, JOINED8, HIGH_BIT, "refused HighBit at 16"),
    (["clip"], "output", START_OF_CLIP, words("00400030") + NOTE, HIGH_BIT, "refused HighBit at 28"),
    (["rehearse", SETUP], "output", words("000000"), words("000000"), words("030000"), "refused BadEvent at 3"),
]
FAULTS = {"output": (4, "output write failed\n"), "notes": (5, ""), F0: (3, "lane write failed\n")}


class Talk:
    """A program that runs, with pipes to it, or another input."""

    def __init__(self, program, arguments, room, source=subprocess.PIPE):
        how = {"stdin": source, "stdout": subprocess.PIPE, "stderr": subprocess.PIPE, "bufsize": 0}
        self.ran = subprocess.Popen([program, *arguments], cwd=room, **how)
        self.room, self.got = room, {"output": b"", "notes": b""}
        self.streams = selectors.DefaultSelector()
        self.streams.register(self.ran.stdout, selectors.EVENT_READ, "output")
        self.streams.register(self.ran.stderr, selectors.EVENT_READ, "notes")

    def say(self, given):
        self.ran.stdin.write(given)

    def read(self, wait, most=65536):
        """Takes what came in this time, and says whether anything did."""
        ready = self.streams.select(wait)
        for key, _ in ready:
            got = os.read(key.fd, most)
            self.got[key.data] += got
            if not got:
                self.streams.unregister(key.fileobj)
        return bool(ready)

    def holds(self, place):
        if place in self.got:
            return self.got[place]
        try:
            with open(f"{self.room}/{place}", "rb") as it:
                return it.read()
        except FileNotFoundError:
            return b""

    def hear(self, place, wanted, wait=1.0):
        """Waits until the place holds the bytes; says how long it took, or None."""
        start = time.monotonic()
        while time.monotonic() - start < wait:
            if self.holds(place) == wanted:
                return time.monotonic() - start
            self.read(0.002)
        return None

    def close(self, name):
        """The peer no longer reads the output or the notes."""
        stream = {"output": self.ran.stdout, "notes": self.ran.stderr}[name]
        self.streams.unregister(stream)
        stream.close()

    def end(self):
        """The exit code, once all was read that still came; or that the program doesn't end."""
        if self.ran.stdin:
            self.ran.stdin.close()
        start = time.monotonic()
        while self.streams.get_map() and time.monotonic() - start < 10:
            self.read(0.01)
        try:
            code = self.ran.wait(2)
        except subprocess.TimeoutExpired:
            self.ran.kill()
            self.ran.wait()
            code = "of a program that doesn't end"
        for stream in (self.ran.stdout, self.ran.stderr):
            stream.close()
        return code


def converse(talk, turns, told):
    """Says and hears the turns, and returns what each place then holds. Told is how long each answer took, or what is missing."""
    held = {"output": b"", "notes": b""}
    for given, wanted in turns:
        talk.say(given)
        if not wanted:
            talk.read(0.05)
        held |= wanted
        for place, bytes_ in (wanted or held).items():
            took = talk.hear(place, bytes_)
            told.append(took * 1e3 if took is not None else f"{place} MISSING, holds {talk.holds(place)[:120]!r}")
    return held


def conversation(program, room, arguments, turns, code, interrupted):
    """What is wrong with a case, which ends with its input or by Ctrl-C while the program waits for more."""
    talk, told = Talk(program, arguments, room), []
    held = converse(talk, turns, told)
    if interrupted:
        talk.ran.send_signal(signal.SIGINT)
        code = -signal.SIGINT
    ended = talk.end()
    wrong = [it for it in told if isinstance(it, str)] + [f"exit code {ended}"] * (ended != code)
    if interrupted:
        lost = [place for place, it in held.items() if talk.holds(place) != it]
        wrong += [f"after Ctrl-C {place} holds {talk.holds(place)[:120]!r}" for place in lost]
    return wrong, max([it for it in told if not isinstance(it, str)], default=0)


def without_a_wait(program, room, arguments, given, wanted, is_slow):
    """10,000 messages that are sent as fast as they are taken, to a peer that reads at once, or late and slowly."""
    talk = Talk(program, arguments, room)
    speaker = threading.Thread(target=lambda: (talk.say(given), talk.ran.stdin.close()), daemon=True)
    speaker.start()
    if is_slow:
        time.sleep(0.3)
    start = time.monotonic()
    while talk.streams.get_map() and time.monotonic() - start < 60:
        talk.read(0.05, 4096 if is_slow else 65536)
        if is_slow:
            time.sleep(0.001)
    code = talk.ran.wait(10)
    speaker.join(10)
    differ = [place for place, it in wanted.items() if talk.holds(place) != it]
    return [f"{place} holds {len(talk.holds(place))} bytes for {len(wanted[place])}" for place in differ] + [f"exit code {code}"] * (code != 0)


def long_talks():
    """The words of a command, 10,000 messages, and what is put of them."""
    count = 10_000
    answered = "".join(f"{16 * it} - answered\n" for it in range(count)).encode() + STATE
    yield ["endpoint", SETUP], DISCOVERY * count, {"output": REPLIES * count, "notes": answered}
    yield ["translate", "down", "--folder", "F"], NOTE * count, {F0: PIECE * count, "notes": b""}
    yield ["translate", "up"], PIECE * count, {"output": NOTE * count, "notes": b""}
    yield ["show"], NOTE * count, {"output": "".join(f"{8 * it} {NOTE_LINE}" for it in range(count)).encode(), "notes": b""}


def closes_output(program, room, place, code, last):
    """The peer stops reading the output, or the listing, after an answer."""
    talk, told = Talk(program, ["endpoint", SETUP], room), []
    held = converse(talk, [(DISCOVERY, {"output": REPLIES, "notes": b"0 - answered\n"})], told)
    talk.close(place)
    try:
        for _ in range(500):
            talk.say(DISCOVERY)
    except BrokenPipeError:
        pass
    ended, kept = talk.end(), talk.got
    is_kept = all(kept[it].startswith(text) for it, text in held.items())
    is_well = ended == code and kept["notes"].endswith(last) and is_kept
    return [it for it in told if isinstance(it, str)] + [f"exit code {ended}, {kept['notes'][-40:]!r}"] * (not is_well)


def closes_lane(program, room):
    """The reader of a lane, which is a FIFO, ends after a message."""
    os.mkfifo(f"{room}/{F0}")
    reader = os.open(f"{room}/{F0}", os.O_RDONLY | os.O_NONBLOCK)
    talk = Talk(program, ["translate", "down", "--folder", "F"], room)
    talk.say(NOTE)
    start, got = time.monotonic(), b""
    while got != PIECE and time.monotonic() - start < 1:
        time.sleep(0.002)
        try:
            got += os.read(reader, 100)
        except BlockingIOError:
            pass
    os.close(reader)
    talk.say(NOTE)
    ended, notes = talk.end(), talk.got["notes"]
    wrong = [f"heard {got!r}"] * (got != PIECE)
    return wrong + [f"exit code {ended}, {notes!r}"] * ((ended, notes) != (3, b"lane write failed\n"))


def input_goes(program, room, ours, theirs, ends):
    """The program's input is a terminal or a connection, which goes away after an answer: the exit code and the listing are one of the ends."""
    talk = Talk(program, ["endpoint", SETUP], room, theirs)
    os.close(theirs)
    os.write(ours, DISCOVERY)
    took = talk.hear("output", REPLIES)
    os.close(ours)
    ended, notes = talk.end(), talk.got["notes"]
    is_well = (ended, notes) in ends and talk.got["output"] == REPLIES
    return [f"no answer: {talk.got}"] * (took is None) + [f"exit code {ended}, {notes!r}"] * (not is_well)


def terminal():
    ours, theirs = pty.openpty()
    tty.setraw(theirs)
    # Linux gives a read that waits then the end of the input, and a later one an error.
    return ours, theirs, [(0, b"0 - answered\n" + STATE), (2, READ_FAILED)]


def connection():
    listener = socket.create_server(("127.0.0.1", 0))
    peer = socket.create_connection(listener.getsockname())
    taken, _ = listener.accept()
    listener.close()
    # A close that lingers for no time resets the connection.
    peer.setsockopt(socket.SOL_SOCKET, socket.SO_LINGER, struct.pack("ii", 1, 0))
    return peer.detach(), taken.detach(), [(2, READ_FAILED)]


def unwritable(is_full):
    """A full disk, or a pipe that nobody reads."""
    if is_full:
        return os.open("/dev/full", os.O_WRONLY)
    reader, writer = os.pipe()
    os.close(reader)
    return writer


def is_not_written(program, room, arguments, place, is_full, messages):
    """Runs a command of which a place can't be written. Its input is a connection that keeps messages apart, and all are sent before the
    program starts. So each read takes one, and what is put of it is written out before the next is read, however long that takes. Returns
    the exit code, the listing, and how many messages were left."""
    ours, theirs = socket.socketpair(socket.AF_UNIX, socket.SOCK_SEQPACKET)
    for message in messages:
        ours.send(message)
    ours.close()
    into = unwritable(is_full)
    if place == F0:
        os.symlink("/dev/full" if is_full else f"/proc/self/fd/{into}", f"{room}/{F0}")
    with open(f"{room}/notes", "wb") as notes:
        how = {"stdout": into if place == "output" else subprocess.DEVNULL, "stderr": into if place == "notes" else notes}
        code = subprocess.run([program, *arguments], cwd=room, stdin=theirs, pass_fds=[into], timeout=60, check=False, **how).returncode
    os.close(into)
    left = 0
    while theirs.recv(65536):
        left += 1
    theirs.close()
    with open(f"{room}/notes", "rb") as notes:
        return code, notes.read().decode(), left


def ends_by_the_fault(program, room, arguments, place, is_full, messages, refusal, is_refused):
    """What is wrong with a run whose first message can't be written out: the second ends it, whether or not it is refused."""
    first, second, refused = messages
    # An input that ends within an item is refused at its end, so nothing follows there.
    after = [] if "Truncated" in refusal else [second]
    given = [first, refused, *after] if is_refused else [first, second, refused, *after]
    code, notes, left = is_not_written(program, room, arguments, place, is_full, given)
    wanted, last = FAULTS[place]
    ends = refusal + "\n" + last if is_refused and place != "notes" else last
    is_well = code == wanted and notes.endswith(ends) and ("refused" in notes) == (is_refused and place != "notes")
    return [f"exit code {code}, {left} messages left, {notes[-80:]!r}"] * (not is_well or left != len(given) - 2)


def unwritten_trials(program):
    for arguments, place, first, second, refused, refusal in UNWRITTEN:
        for is_full in (True, False):
            for is_refused in (False, True):
                into = "on a full disk" if is_full else "into a pipe that nobody reads"
                name = f"{' '.join(os.path.basename(it) for it in arguments)}, {place} {into}{', then a refusal' * is_refused}"
                it = (arguments, place, is_full, (first, second, refused), refusal, is_refused)
                yield name, lambda room, it=it: (ends_by_the_fault(program, room, *it), None)


def trials(program):
    """The name of each trial, and a call that says what is wrong with it and how long its slowest answer took."""
    for arguments, turns, code in CASES:
        name = " ".join(os.path.basename(it) for it in arguments)
        yield name, lambda room, it=(arguments, turns, code): conversation(program, room, *it, False)
        yield f"{name}, ended by Ctrl-C", lambda room, it=(arguments, turns, code): conversation(program, room, *it, True)
    for arguments, given, wanted in long_talks():
        for is_slow in (False, True):
            name = f"{' '.join(os.path.basename(it) for it in arguments)}, 10,000 messages without a wait{', read slowly' * is_slow}"
            yield name, lambda room, it=(arguments, given, wanted, is_slow): (without_a_wait(program, room, *it), None)
    yield "the peer closes the output", lambda room: (closes_output(program, room, "output", 4, b"output write failed\n"), None)
    yield "the peer closes the listing", lambda room: (closes_output(program, room, "notes", 5, b""), None)
    yield "the peer closes a lane", lambda room: (closes_lane(program, room), None)
    yield "the input is a terminal that goes", lambda room: (input_goes(program, room, *terminal()), None)
    yield "the input is a connection that is reset", lambda room: (input_goes(program, room, *connection()), None)
    yield from unwritten_trials(program)


def main(program):
    tried = failed = 0
    for name, trial in trials(program):
        with tempfile.TemporaryDirectory() as room:
            os.mkdir(f"{room}/F")
            wrong, slowest = trial(room)
        tried, failed = tried + 1, failed + bool(wrong)
        print(f"{name}: {'; '.join(wrong) or 'as it should'}{f', within {slowest:.1f} ms' if slowest and not wrong else ''}", flush=True)
    print(f"conversations: {tried} tried, {failed} failed")
    return 1 if failed else 0


if __name__ == "__main__":
    if len(sys.argv) != 2:
        print(__doc__, file=sys.stderr)
        sys.exit(2)
    sys.exit(main(os.path.abspath(sys.argv[1])))
