#!/usr/bin/env python3
"""check.py INPUTS RESULTS PROGRAM TEST..: compares what the tests left with what should be. Exit code 1 if anything differs.

What depends on the kernel alone is printed as a note and compared with nothing."""
import os
import subprocess
import sys

import setups

GROUPS = (0, 1, 5)
EVENT_BYTES = (0, 0, 2, 3, 3, 1, 2, 3, 3, 3, 3, 3, 2, 2, 3, 1)
MESSAGE_BYTES = {0xF1: 2, 0xF2: 3, 0xF3: 2, 0xF6: 1}


class Found:
    """What was checked and what differs."""

    def __init__(self, inputs, results, program):
        self.inputs, self.results, self.program, self.checks, self.failed = inputs, results, program, 0, 0

    def check(self, is_so, what):
        self.checks += 1
        self.failed += not is_so
        print(f"  {'ok    ' if is_so else 'DIFFER'} {what}")

    def data(self, path, where=None):
        try:
            with open(f"{where or self.results}/{path}", "rb") as it:
                return it.read()
        except FileNotFoundError:
            return b"(missing)"

    def text(self, path, where=None):
        return self.data(path, where).decode(errors="replace").strip()

    def given(self, path):
        return self.data(path, self.inputs)

    def run(self, *words, stdin):
        return subprocess.run([self.program, *words], input=stdin, capture_output=True, check=False)

    def check_end(self, folder, name, code, last=""):
        lines = self.text(f"{folder}/{name}.listing").splitlines() or [""]
        got = self.text(f"{folder}/{name}.code")
        self.check(got == str(code) and last in ("", lines[-1]), f"{name}: exit code {got}, last line `{lines[-1]}`")


def note(text):
    print(f"  note   {text}")


def fields(text):
    return dict(line.split("=", 1) for line in text.splitlines() if "=" in line)


def replies(text):
    """Each question with the packets in reply, in order."""
    found = []
    for line in text.splitlines():
        if line.startswith("ask "):
            found.append((line[4:], []))
        else:
            found[-1][1].append(line.strip())
    return found


# What the host's kernel mends, with its own gadget too: a block of MIDI 1.0 keeps one group.
def mended(name, wanted):
    return {**wanted, "block0.count": "1"} if name == "midi1-wide" else wanted


def check_known(found, name, setup):
    wanted, folder = setups.known(setup), f"setups/{name}"
    ours, kernels = (fields(found.text(f"{folder}/{mode}/info")) for mode in ("ours", "kernel"))
    alike = sum(ours.get(key) == value for key, value in wanted.items())
    found.check(ours == mended(name, wanted), f"{name}: the host knows {alike} of {len(wanted)} fields as the setup has them")
    for key, value in wanted.items():
        if ours.get(key) != value:
            note(f"{key}: {value} in the setup, {ours.get(key)} at the host")
    note(f"of the kernel's own gadget it knows {sum(kernels.get(key) == value for key, value in wanted.items())}")
    for what in ("proc", "sequencer"):
        same = found.text(f"{folder}/ours/{what}") == found.text(f"{folder}/kernel/{what}")
        note(f"{what}: {'the same text' if same else 'another text'} as with the kernel's gadget")
    return len(wanted), alike


def in_short(packets):
    return " | ".join(packets) if 0 < len(packets) < 4 else f"{len(packets)} packets"


def check_replies(found, name, setup):
    by_rule = setups.Replies(setup)
    ours, kernels = (replies(found.text(f"setups/{name}/{mode}/answers")) for mode in ("ours", "kernel"))
    questions = [line.split()[1:] for line in found.given(f"{name}.questions").decode().splitlines()]
    right = sum(got == by_rule.to(words) for words, (_, got) in zip(questions, ours))
    found.check(right == len(questions) == len(ours), f"{name}: {right} of {len(questions)} questions by hand are answered by the rules")
    for (question, got), (_, other) in zip(ours, kernels):
        if got != other:
            note(f"{question}: {in_short(got)}; the kernel's gadget: {in_short(other)}")


def check_setups(found):
    total, alike = 0, 0
    for name, setup in setups.all_setups().items():
        count, same = check_known(found, name, setup)
        check_replies(found, name, setup)
        asked = found.text(f"setups/{name}/ours/log").count("ump_req_msg: request")
        note(f"the host asked {asked} times")
        found.check(found.text(f"setups/{name}/ours/endpoint.code") == "130", f"{name}: Ctrl-C ends the endpoint with exit code 130")
        total, alike = total + count, alike + same
    print(f"  fields: {alike} of {total} as the setups have them")


def messages(stream):
    """The messages of a MIDI 1.0 stream with their statuses; Real Time stands between messages."""
    found, current, running = [], b"", 0
    for byte in stream:
        if byte >= 0xF8:
            found.append(bytes([byte]))
            continue
        if byte >= 0x80 and byte != 0xF7:
            found += [current] if current else []
            current, running = bytes([byte]), byte
        else:
            current = (current or bytes([running] if running and byte != 0xF7 else [])) + bytes([byte])
        length = MESSAGE_BYTES.get(current[0], 2 if current[0] & 0xE0 == 0xC0 else 3)
        if byte == 0xF7 or current[0] != 0xF0 and len(current) == length:
            found.append(current)
            current = b""
    return found + ([current] if current else [])


def without_data(message):
    """A message as Linux translates it: F1, F2 and F3 lose their data bytes."""
    return message[:1] if message[0] in (0xF1, 0xF2, 0xF3) else message


def check_play(found, name, wanted):
    same = sum(found.data(f"live/{name}/group-{group:02}.midi1") == stream for group, stream in enumerate(wanted[0]))
    found.check(same == 16, f"{name}: {same} of 16 streams as from a file")
    found.check(found.data(f"live/{name}.listing") == wanted[1], f"{name}: the listing is that from a file")
    found.check_end("live", name, 130)


def from_file(found, folder):
    os.makedirs(folder, exist_ok=True)
    listing = found.run("translate", "down", "--little", "--folder", folder, stdin=found.given("music.packets")).stderr
    return [found.data(f"group-{group:02}.midi1", folder) for group in range(16)], listing


def check_live(found):
    looks = [int(it) for it in found.text("live/looks").split()]
    found.check(len(looks) == 12 and max(looks) < 100, f"one by one: {len(looks)} packets, each in its file within {max(looks)} looks of 10 ms")
    found.check_end("live", "one", 130)
    wanted = from_file(found, f"{found.results}/from-file")
    check_play(found, "slowly", wanted)
    check_play(found, "by-cat", wanted)
    for group in GROUPS:
        ours, kernels = messages(wanted[0][group]), messages(found.data(f"live/kernel.{group:02}"))
        same = [*map(without_data, ours)] == [*map(without_data, kernels)]
        found.check(same, f"group {group}: {len(ours)} messages, as the kernel's translation except for the data of F1, F2 and F3")
        note(f"{sum(one != two for one, two in zip(ours, kernels))} of them lost their data in the kernel")
    up = found.run("translate", "up", "--little", stdin=found.given("cable0.bytes"))
    got = found.data("live/up.packets")
    found.check(sorted(words(up.stdout)) == sorted(words(got)), "up: the host reads the packets that the device wrote")
    note(f"up: they came {'in order' if got == up.stdout else 'in another order, in transfers of 512 bytes'}")
    found.check_end("live", "up", up.returncode)


def words(data):
    return [data[at:at + 4] for at in range(0, len(data), 4)]


def real_time(stream, is_it):
    return bytes(it for it in stream if (it >= 0xF8) == is_it)


def written_out(stream):
    """A stream with each running status written out."""
    found, running, count = bytearray(), 0, 0
    for byte in stream:
        if 0x80 <= byte < 0xF8:
            running, count = (byte, 0) if byte < 0xF0 else (0, 0)
        elif byte < 0x80:
            if running and count == (1 if running & 0xE0 == 0xC0 else 2):
                found.append(running)
                count = 0
            count += 1
        found.append(byte)
    return bytes(found)


def is_carried(got, sent):
    """Whether a stream is what was sent: the kernel writes running status out, and may put a clock earlier in an exclusive."""
    whole = written_out(sent)
    return all(real_time(got, is_it) == real_time(whole, is_it) for is_it in (True, False))


def check_usb(found):
    sent = [found.given(f"cable{number}.bytes") for number in (0, 1)]
    found.check_end("usb", "split", 0)
    for number in (0, 1):
        got = found.data(f"usb/split/group-{number:02}.midi1")
        found.check(is_carried(got, sent[number]), f"usb split: cable {number} has the {len(sent[number])} bytes that were sent")
        found.check(got == found.data(f"usb/host.{number:02}"), f"usb split: cable {number} is what the host's own port gives, {len(got)} bytes")
    found.check(found.data("usb/split.listing") == b"", "usb split: nothing is listed")
    for name in ("recorded", "played"):
        found.check(is_carried(found.data(f"usb/amidi.{name}"), sent[0]), f"amidi: what it {name} is what was sent")
    found.check_end("usb", "pack", found.run("usb", "pack", stdin=sent[0]).returncode)
    events = words(found.data("usb/packed.events"))
    carried = b"".join(it[1:1 + EVENT_BYTES[it[0] & 15]] for it in events)
    found.check(found.data("usb/pack.played") == carried, f"usb pack: the device hears the bytes of its {len(events)} events")
    found.check(is_carried(carried, sent[0]), "usb pack: they are the bytes that went in")


ENDS = [("replug", 130, ""), ("unbound", 2, "read failed"), ("host-show", 2, "read failed"), ("host-down", 2, "read failed"),
        ("host-endpoint", 2, "read failed"), ("host-sysex8", 2, "read failed"), ("host-up", 2, "read failed"),
        ("host-writes", 4, "output write failed"), ("late", 130, ""), ("big", 130, ""), ("first", 130, ""), ("unheard", 130, ""),
        ("ci", 130, "")]


def check_unplug(found):
    for name, code, last in ENDS:
        found.check_end("unplug", name, code, last)
    for name in ("replug", "second", "unheard"):
        found.check(found.text(f"unplug/{name}.state") == "goes on", f"{name}: it waits, and says nothing")
    before, after = (found.text(f"unplug/{name}/info") for name in ("before", "replugged"))
    found.check(before == after and "version=0101" in before, "replug: the host knows the same as before")
    for name in ("late", "big"):
        found.check(fields(found.text(f"unplug/{name}/info")).get("version") == "0000", f"{name}: the host falls back to the descriptors")
        found.check(found.text(f"unplug/{name}.listing") == "", f"{name}: nothing is listed")
    check_ci(found)


def check_ci(found):
    from_a_file = found.run("endpoint", f"{found.inputs}/one.toml", "--little", stdin=found.given("ci.packets")).stdout
    got = found.data("unplug/ci.replies")
    found.check(got == from_a_file and got, f"MIDI-CI over the wire: {len(got)} bytes in reply, as from a file")
    info = setups.Replies(setups.all_setups()["one"]).to(["F0000101", "00000001", "00000000", "00000000"])
    found.check(replies(found.text("unplug/ci.answer"))[0][1] == info, "after the music it still answers")


def main(inputs, results, program, tests):
    found = Found(inputs, results, program)
    for test in tests:
        print(f"{test}:")
        {"setups": check_setups, "live": check_live, "usb": check_usb, "unplug": check_unplug}[test](found)
    print(f"field: {found.checks} checks, {found.failed} differ")
    return 1 if found.failed else 0


if __name__ == "__main__":
    if len(sys.argv) < 5:
        sys.exit(__doc__.splitlines()[0])
    sys.exit(main(*sys.argv[1:4], sys.argv[4:]))
