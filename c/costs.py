#!/usr/bin/env python3
"""costs.py print LIBRARY ROOM: prints the table of docs/c-library.md that says what a handle costs, of this archive, as it is on this machine.
costs.py check LIBRARY ROOM [RUNNER..]: compares the page with what is measured: the bytes and requests are the same, and each call runs on the
stack that the page gives, with a page below it that can't be touched; a stack that is far too large is a difference, too. RUNNER runs a program
for another processor, whose compiler is CC; then a smaller stack is no difference. ROOM is a folder for what is built."""
import os
import re
import subprocess
import sys

HERE = os.path.dirname(os.path.abspath(__file__))
TOP = os.path.dirname(HERE)
PAGE = f"{TOP}/docs/c-library.md"
ROOMS = [6, 1024]
COLUMNS = 9
# The rows of the table, by the names of tests/costs.c, with an open call and one more call for the size of the code.
ROWS = {
    "down": ("down", "down", "larboardyuzu_down_open(&it, 64, 3)", "larboardyuzu_down_packet(&it, words, 2, 0, bytes, 64, (larboardyuzu_piece *)out)"),
    "up": ("up", "up", "larboardyuzu_up_open(&it, 0, 64, 0)", "larboardyuzu_up_byte(&it, bytes[0], 0, words, 64, (larboardyuzu_outcome *)out)"),
    "parser": ("parser", "parser", "larboardyuzu_parser_open(&it, 64)",
               "larboardyuzu_parser_byte(&it, bytes[0], 0, bytes, 64, (larboardyuzu_outcome *)out)"),
    "usb": ("usb", "usb", "larboardyuzu_usb_open(&it, 0, 64)", "larboardyuzu_usb_byte(&it, bytes[0], 0, bytes, 64, (larboardyuzu_outcome *)out)"),
    "endpoint": ("endpoint, one block and one profile", "endpoint", "larboardyuzu_endpoint_open(&it, bytes, 64, 64, bytes)",
                 "larboardyuzu_endpoint_packet(&it, words, 2, 0, words, 64, (larboardyuzu_replies *)out)"),
    "sysex8-1": ("sysex8, one stream", "sysex8", "larboardyuzu_sysex8_open(&it, 1, 64)",
                 "larboardyuzu_sysex8_packet(&it, words, 4, 0, bytes, 64, (larboardyuzu_part *)out)"),
    "state-0-0": ("state for packets, `notes` and `params` 0", "state", "larboardyuzu_state_open(&it, 64, 0, 0, 0)", "larboardyuzu_state_packet(&it, words, 2)"),
    "state-of-bytes": ("state for bytes (`OF_BYTES`), `notes` and `params` 0", "state", "larboardyuzu_state_open(&it, 64, 0, 0, 4)", "larboardyuzu_state_byte(&it, bytes[0])"),
}
# A program of one kind, without a C library.
PROGRAM = """#include "larboardyuzu.h"
#include "larboardyuzu_heap.h"
larboardyuzu_given larboardyuzu_heap_alloc(size_t size, size_t align) {{ larboardyuzu_given it = {{ false, (void *)(size + align) }}; return it; }}
larboardyuzu_given larboardyuzu_heap_realloc(void *at, size_t old, size_t size, size_t align) {{ larboardyuzu_given it = {{ false, (char *)at + old + size + align }}; return it; }}
void larboardyuzu_heap_dealloc(void *at) {{ (void)at; }}
void *memcpy(void *to, const void *from, size_t size) {{ return size ? to : (void *)from; }}
void *memmove(void *to, const void *from, size_t size) {{ return size ? to : (void *)from; }}
void *memset(void *to, int byte, size_t size) {{ return byte + (char *)to + size; }}
unsigned long out[64];
uint32_t words[64];
uint8_t bytes[64];
larboardyuzu_{kind} it;
int run(void);
int run(void) {{ return (int)({calls}); }}
"""


def cc():
    return os.environ.get("CC", "cc").split()


def build(target, source, *words):
    subprocess.run([*cc(), "-std=gnu11", "-O2", f"-I{TOP}/include", *source, *words, "-o", target], check=True)


def text_size(program):
    prefix = cc()[0].removesuffix("gcc") if cc()[0].endswith("-gcc") else ""
    said = subprocess.run([f"{prefix}size", program], check=True, capture_output=True, text=True).stdout
    return int(said.split("\n")[1].split()[0])


def code_of(row, library, room):
    """The bytes of code of a program with an open call, one more and close."""
    kind, opens, calls = ROWS[row][1:]
    sizes = []
    for name, text in (("with", f"{opens} + {calls} + (larboardyuzu_{kind}_close(&it), 0)"), ("without", "out[0]")):
        with open(f"{room}/{name}.c", "w", encoding="utf-8") as it:
            it.write(PROGRAM.format(kind=kind, calls=text))
        build(f"{room}/{name}", [f"{room}/{name}.c", library], "-ffreestanding", "-fno-builtin", "-nostdlib", "-static", "-no-pie",
              "-Wl,--gc-sections,-e,run,--build-id=none")
        sizes.append(text_size(f"{room}/{name}"))
    return sizes[0] - sizes[1]


def measured(library, room, runner, stacks=(), own_heap=()):
    """What tests/costs.c prints, by row and room: kept, peak, requests, stack of open and of use."""
    build(f"{room}/costs", [f"{HERE}/tests/costs.c", f"{HERE}/tests/subjects.c", *own_heap, library])
    words = [*runner, f"{room}/costs"]
    if stacks:
        with open(f"{room}/stacks", "w", encoding="utf-8") as it:
            it.writelines(f"{name} {opens} {use}\n" for name, (opens, use) in stacks.items())
        words.append(f"{room}/stacks")
    done = subprocess.run(words, stdout=subprocess.PIPE, text=True, check=False)
    if done.returncode:
        raise SystemExit(f"costs: tests/costs.c ends with {done.returncode} after\n{done.stdout}")
    found = {}
    for line in done.stdout.splitlines():
        name, at, *numbers = line.split()
        found.setdefault(name, {})[int(at)] = [int(it) for it in numbers]
    return found


def blocks(library, room, runner):
    """The sizes that the block of examples/c/own_heap.c must have, by row and room."""
    words = ["-DOWN_HEAP", "-DHEAP_SIZE=4194304", f"-I{TOP}/examples/c", f"{TOP}/examples/c/own_heap.c"]
    return {name: {at: it[1] for at, it in found.items()} for name, found in measured(library, room, runner, (), words).items()}


def in_kilobytes(size):
    """Tenths of 1,024 bytes, rounded up."""
    return f"{-(-size * 10 // 1024) / 10:.1f}"


def row_of(name, found, block, code):
    least = found[ROOMS[0]]
    stack = [max(found[it][at] for it in ROOMS) * 11 // 10 for at in (3, 4)]  # (a tenth more: the other processor's)
    kept = [f"{found[it][0]:,}" + (f" ({found[it][1]:,} during `open`)" if found[it][1] > found[it][0] else "") for it in ROOMS]
    return [ROWS[name][0], *kept, *(f"{block[it]:,}" for it in ROOMS), f"{least[2]:,}", *map(in_kilobytes, stack), code]


def read_page():
    """The rows of the page's table, by the names of tests/costs.c."""
    with open(PAGE, encoding="utf-8") as it:
        lines = [[cell.strip() for cell in line.strip("|\n").split("|")] for line in it if line.startswith("| ")]
    named = {title: name for name, (title, *_) in ROWS.items()}
    return {named[it[0]]: it for it in lines if it[0] in named and len(it) == COLUMNS}


def bytes_of(kilobytes):
    return int(float(kilobytes) * 1024) + 1


def check(library, room, runner):
    page = read_page()
    told = [f"{it}: not in the table of {PAGE}" for it in ROWS if it not in page]
    if told:
        return told
    found = measured(library, room, runner, {name: tuple(map(bytes_of, it[6:8])) for name, it in page.items()})
    block = blocks(library, room, runner)
    for name, cells in page.items():
        wanted = row_of(name, found[name], block[name], cells[8])
        told += [f"{name}: the page has {cells[1:6]}, measured is {wanted[1:6]}"] if cells[1:6] != wanted[1:6] else []
        if not runner:
            told += [f"{name}: the page gives a stack of {has}, enough is {needs}" for has, needs in zip(cells[6:8], wanted[6:8])
                     if float(has) > 1.5 * float(needs) + 1]
    return told


def print_table(library, room):
    print("| A handle | Bytes at room 6 | at 1,024 | Block of `own_heap.c` at room 6 | at 1,024 | Allocations | KB of stack for open |"
          " KB of stack for its calls | KB of code |")
    print("|---" * COLUMNS + "|")
    block = blocks(library, room, [])
    for name, found in measured(library, room, []).items():
        print(f"| {' | '.join(row_of(name, found, block[name], in_kilobytes(code_of(name, library, room))))} |")


def main(action, library, room, runner):
    os.makedirs(room, exist_ok=True)
    if action == "print":
        print_table(library, room)
        return 0
    told = check(library, room, runner)
    print(*(f"costs: {it}" for it in told), f"costs: {len(told)} differences" if told else "costs: as the page says", sep="\n")
    return 1 if told else 0


if __name__ == "__main__":
    if len(sys.argv) < 4 or sys.argv[1] not in ("print", "check"):
        print(__doc__, file=sys.stderr)
        sys.exit(2)
    sys.exit(main(*sys.argv[1:4], sys.argv[4:]))
