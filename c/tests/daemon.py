#!/usr/bin/env python3
"""daemon.py SETUP COMMAND..: starts examples/c/daemon.c on one end of a socket pair, and speaks to it as a peer: discoveries cut anywhere, MIDI-CI,
a profile switched on and off, packets that are refused, a flood, and an end in the middle of a packet. Another peer never reads, and a third
one never stops sending: the daemon has to end by SIGTERM all the same. SETUP is examples/endpoint.toml. What it has to reply is written here by
M2-104-UM and M2-101-UM."""
import os
import select
import signal
import socket
import struct
import subprocess
import sys
import threading
import time

WORDS = [1, 1, 1, 2, 2, 4, 1, 1, 2, 2, 2, 3, 3, 4, 4, 4]
INFO, PROFILE = (0xF0010101, 0x81000300, 0, 0), bytes([126, 0, 1, 1, 0])
MUID, OURS, FLOOD = 19088743, 0x0203040, 1000
SECONDS = 600  # (of which none is waited for nothing: the machine may have much else to do)


class Peer:
    def __init__(self, command, errors=subprocess.PIPE):
        self.ours, its = socket.socketpair()
        self.daemon = subprocess.Popen([*command, str(its.fileno())], pass_fds=[its.fileno()], stderr=errors)
        its.close()
        self.held = b""
        self.failed = 0

    def send(self, words):
        self.ours.sendall(struct.pack(f">{len(words)}I", *words))

    def packets(self, count):
        """The next packets of the daemon: so many, or those that come in time."""
        got, end = [], time.monotonic() + SECONDS
        while len(got) < count and time.monotonic() < end:
            size = 4 * WORDS[self.held[0] >> 4] if self.held else 4
            if len(self.held) >= size:
                got.append(struct.unpack(f">{size // 4}I", self.held[:size]))
                self.held = self.held[size:]
            elif select.select([self.ours], [], [], 1)[0]:
                self.held += self.ours.recv(65536)
        return got

    def see(self, what, got, wanted):
        if got != wanted:
            print(f"daemon.c: {what}: {got}, and not {wanted}")
            self.failed += 1

    def asks(self, what, words, *wanted):
        self.send(words)
        self.see(what, self.packets(len(wanted)), list(wanted))


def exclusive(payload):
    """The words of a 7-bit exclusive of group 0."""
    parts = [payload[i : i + 6] for i in range(0, len(payload), 6)]
    for i, part in enumerate(parts):
        form = 0 if len(parts) == 1 else 1 if i == 0 else 3 if i == len(parts) - 1 else 2
        yield from struct.unpack(">2I", bytes([0x30, form << 4 | len(part)]) + part.ljust(6, b"\0"))


def packets_of(payload):
    words = list(exclusive(payload))
    return [tuple(words[i : i + 2]) for i in range(0, len(words), 2)]


def four(number):
    return bytes(number >> 7 * i & 127 for i in range(4))


def ci(sub, source, destination, body=b"", device=0x7F):
    return bytes([0x7E, device, 0x0D, sub, 2]) + four(source) + four(destination) + body


def talk(peer):
    for byte in struct.pack(">4I", 0xF0000101, 1, 0, 0):
        peer.ours.sendall(bytes([byte]))
        time.sleep(0.001)
    peer.see("Endpoint Info", peer.packets(1), [INFO])
    peer.send(list(exclusive(ci(0x70, OURS, 0x0FFFFFFF, bytes([125, 0, 0, 1, 0, 2, 0, 1, 0, 0, 0, 0x0C]) + four(512) + b"\0"))))
    got = peer.packets(6)
    peer.see("Discovery", (len(got), got[0][0] if got else 0), (6, 0x30167E7F))
    for name, asked, report in (("on", 0x22, 0x24), ("off", 0x23, 0x25)):
        peer.asks(f"profile {name}", list(exclusive(ci(asked, OURS, MUID, PROFILE + b"\0\0", 2))),
                  *packets_of(ci(report, MUID, 0x0FFFFFFF, PROFILE + b"\1\0", 2)))  # one channel
    peer.send([0x30070102, 0x03040506, 0x3003FFFF, 0, 0x20903C80])
    peer.send([0x30160102, 0x03040506] + [0x30260102, 0x03040506] * 700 + [0x30310100, 0])
    peer.asks("Endpoint Info after refusals", [0xF0000101, 1, 0, 0], INFO)
    peer.asks("the MIDI 1.0 protocol", [0xF0050100, 0, 0, 0], (0xF0060100, 0, 0, 0))
    flood = threading.Thread(target=lambda: [peer.send([0xF0000101, 1, 0, 0]) for _ in range(FLOOD)])
    flood.start()
    peer.see("a flood", peer.packets(FLOOD).count(INFO), FLOOD)
    flood.join()
    peer.ours.sendall(b"\xF0\x00\x01")
    peer.ours.close()


def ask_without_reading(peer):
    """Asks until the daemon takes no more, since its replies fill the socket."""
    peer.asks("Endpoint Info at first", [0xF0000101, 1, 0, 0], INFO)
    peer.ours.settimeout(1)
    try:
        while True:
            peer.ours.sendall(struct.pack(">4I", 0xF0000101, 1, 0, 0) * 64)
    except socket.timeout:
        pass
    peer.daemon.terminate()


def send_without_end(peer):
    """Sends packets faster than the daemon takes them, stops it in the middle, and ends it while the socket is full."""
    peer.asks("Endpoint Info at first", [0xF0000101, 1, 0, 0], INFO)
    sender = subprocess.Popen(["cat", "/dev/zero"], stdout=peer.ours, stderr=subprocess.DEVNULL)
    peer.daemon.send_signal(signal.SIGSTOP)
    os.waitpid(peer.daemon.pid, os.WUNTRACED)
    while select.select([], [peer.ours], [], 0)[1]:
        time.sleep(0.01)  # the sender fills the socket
    peer.daemon.terminate()
    sender.kill()
    sender.wait()
    peer.daemon.send_signal(signal.SIGCONT)


def left_unread(peer):
    """Whether the daemon ended before it had read everything."""
    peer.ours.settimeout(SECONDS)
    try:
        while peer.ours.recv(65536):
            pass
    except ConnectionResetError:
        return True
    return False


def end(peer):
    """Waits for the end by SIGTERM, and looks whether the daemon ended by itself, before it had read everything."""
    try:
        peer.daemon.wait(timeout=SECONDS)
    except subprocess.TimeoutExpired:
        peer.daemon.kill()
        peer.daemon.wait()
    peer.see("its end by SIGTERM", (peer.daemon.returncode, left_unread(peer)), (0, True))
    return peer.failed


def main(setup, command):
    peer = Peer([*command, setup])
    talk(peer)
    errors = peer.daemon.communicate(timeout=SECONDS)[1].decode().split("\n")
    peer.see("its end", peer.daemon.returncode, 0)
    words = [it.split(" ")[1] for it in errors if it]
    for word in ("BAD_COUNT", "HIGH_BIT", "EXCLUSIVE_TOO_LONG", "ANSWERED"):
        peer.see(word, word in words, True)
    failed = peer.failed
    for terminate in (ask_without_reading, send_without_end):
        busy = Peer([*command, setup], subprocess.DEVNULL)
        terminate(busy)
        failed += end(busy)
    print(f"daemon.c: {failed} failed" if failed else "daemon.c: ok")
    return failed > 0


if __name__ == "__main__":
    sys.exit(main(sys.argv[1], sys.argv[2:]) if len(sys.argv) > 2 else __doc__)
