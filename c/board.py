#!/usr/bin/env python3
"""board.py print LIBRARY ROOM: prints the table of docs/c-library.md that says which devices fit in how much RAM, as it is with this archive for
64-bit ARM on a board of qemu-system-aarch64 without an operating system.
board.py check LIBRARY ROOM: compares the page with what is measured: a device fits in the RAM for which the page says so, and in no other, and
takes as much as the page says, within a fifth (the stack depends on the compiler). ROOM is a folder for what is built, CC_ARM64 the compiler."""
import os
import re
import subprocess
import sys

HERE = os.path.dirname(os.path.abspath(__file__))
TOP = os.path.dirname(HERE)
PAGE = f"{TOP}/docs/c-library.md"
# The rows of the table, with the word that builds each device.
DEVICES = {
    "`down`, `usb` and `parser`": [],
    "these and an endpoint": ["-DWITH_ENDPOINT"],
    "these and `up`": ["-DWITH_UP"],
}
MEMORIES = [24, 64, 256]  # KB
SECONDS = 1200


class Board:
    """The archive and the folder for what is built."""

    def __init__(self, library, room):
        self.library, self.room = library, room
        os.makedirs(room, exist_ok=True)

    def build(self, words, block, stack, memory):
        """Links a device with a heap, a stack and RAM of these sizes. Returns the bytes of RAM that it takes, or None if they are too few."""
        with open(f"{HERE}/tests/board.ld", encoding="utf-8") as it:
            script = it.read().replace("= RAM_SIZE", f"= {memory}").replace("+= STACK_SIZE", f"+= {stack}")
        with open(f"{self.room}/board.ld", "w", encoding="utf-8") as it:
            it.write(script)
        command = [os.environ.get("CC_ARM64") or "aarch64-linux-gnu-gcc", "-std=gnu11", "-Os", "-ffreestanding", "-fno-builtin",
                   "-fno-stack-protector", "-fno-pie", "-no-pie", "-mstrict-align", "-ffunction-sections", "-fdata-sections", "-Wall", "-Wextra",
                   "-Werror", f"-I{TOP}/include", f"-I{TOP}/examples/c", f"-DHEAP_SIZE={block}", *words, "-static", "-nostdlib",
                   f"-Wl,-T,{self.room}/board.ld,--gc-sections,--build-id=none", f"{HERE}/tests/start_arm64.c", f"{HERE}/tests/no_libc.c",
                   f"{HERE}/tests/board.c", f"{TOP}/examples/c/own_heap.c", self.library, "-o", f"{self.room}/board.elf"]
        done = subprocess.run(command, capture_output=True, text=True, check=False)
        if done.returncode:
            if "overflowed by" in done.stderr:
                return None
            raise SystemExit(f"board: {done.stderr}")
        sizes = subprocess.run([command[0].removesuffix("gcc") + "size", "-A", f"{self.room}/board.elf"], capture_output=True, text=True, check=True).stdout
        return sum(int(it) for it in re.findall(r"^\.(?:data|bss)\s+(\d+)", sizes, re.M))

    def run(self):
        """What the device says: the bytes of the block and of the stack that it took, or None if it doesn't work."""
        command = ["qemu-system-aarch64", "-M", "virt", "-cpu", "cortex-a53", "-m", "32M", "-nic", "none", "-nographic", "-no-reboot", "-kernel",
                   f"{self.room}/board.elf"]
        said = subprocess.run(command, stdin=subprocess.DEVNULL, capture_output=True, text=True, timeout=SECONDS, check=False).stdout
        found = re.fullmatch(r"board: ok, (\d+) of the block, (\d+) of the stack\n", said)
        return tuple(map(int, found.groups())) if found else None

    def measured(self, words):
        """The bytes of RAM of a device, and the memories in which it works."""
        self.build(words, 2 << 20, 64 << 10, 8 << 20)
        found = self.run()
        if found is None:
            raise SystemExit(f"board: a device {words} doesn't work in 8 MB")
        block, stack = -(-found[0] // 16) * 16, -(-found[1] // 16) * 16 + 64
        fits = [it for it in MEMORIES if self.build(words, block, stack, it << 10) and self.run()]
        return self.build(words, block, stack, 8 << 20), fits


def in_kilobytes(size):
    return -(-size // 1024)


def cells_of(size, fits):
    return [f"{in_kilobytes(size)}", *("yes" if it in fits else "no" for it in MEMORIES)]


def read_page():
    """The cells of the page's table, by the names of the devices."""
    with open(PAGE, encoding="utf-8") as it:
        rows = [[cell.strip() for cell in line.strip("|\n").split("|")] for line in it if line.startswith("| ")]
    return {it[0]: it[1:] for it in rows if it[0] in DEVICES and len(it) == 2 + len(MEMORIES)}


def main(action, library, room):
    board, page, told = Board(library, room), read_page(), 0
    for name, words in DEVICES.items():
        size, fits = board.measured(words)
        cells = cells_of(size, fits)
        if action == "print":
            print(f"| {' | '.join([name, *cells])} |")
            continue
        said = page.get(name)
        if not said or said[1:] != cells[1:] or not 0.8 * int(said[0]) <= int(cells[0]) <= 1.2 * int(said[0]):
            print(f"board: {name}: the page has {said}, measured is {cells}")
            told += 1
    if action == "check":
        print(f"board: {told} differences" if told else "board: devices as the page says")
    return 1 if told else 0


if __name__ == "__main__":
    if len(sys.argv) != 4 or sys.argv[1] not in ("print", "check"):
        print(__doc__, file=sys.stderr)
        sys.exit(2)
    sys.exit(main(*sys.argv[1:]))
