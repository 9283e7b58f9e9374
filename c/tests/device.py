#!/usr/bin/env python3
"""device.py PROGRAM SETUP: asks examples/c/device.c over a pair of terminals for the endpoint info, in two parts that cut a packet."""
import os
import struct
import subprocess
import sys
import time
import tty

# A Note On, which has no reply, and an Endpoint Discovery that asks for Endpoint Info (M2-104-UM).
ASKED = struct.pack("=6I", 0x40903C00, 0xC9240000, 0xF0000101, 0x00000001, 0, 0)
# Version 1.1, static, one function block, both protocols: what examples/endpoint.toml says.
WANTED = struct.pack("=4I", 0xF0010101, 0x81000300, 0, 0)
SECONDS = 600


def talk(program, setup):
    ours, its = os.openpty()
    tty.setraw(its)
    os.set_blocking(ours, False)
    with subprocess.Popen([program, setup, os.ttyname(its)]) as device:
        for part in (ASKED[:4], ASKED[4:]):
            os.write(ours, part)
            time.sleep(0.2)
        got, end = b"", time.monotonic() + SECONDS
        while len(got) < len(WANTED) and time.monotonic() < end:
            try:
                got += os.read(ours, len(WANTED))
            except BlockingIOError:
                time.sleep(0.05)
        device.kill()
    return got


def main(program, setup):
    got = talk(program, setup)
    print("device.c: ok" if got == WANTED else f"device.c: it answers {got.hex()}, and not {WANTED.hex()}")
    return got != WANTED


if __name__ == "__main__":
    sys.exit(main(*sys.argv[1:]) if len(sys.argv) == 3 else __doc__)
