#!/usr/bin/env python3
"""run.py PROGRAM [--rounds N] [--packets N] [--instructions] [--only ROW,..]: compares the built program with plain Rust.

It builds plain_rust/ with cargo, makes the recordings, and checks that both programs write the same bytes. Then each round runs every row
once, the two programs one after the other, pinned to one core, from a file in memory to files in memory. The times are processor time, user
and system. `median` is the median of the rounds' ratios, and `best` the ratio of the two shortest times: below 1 the program takes less.

  --rounds N       the rounds (12)
  --packets N      the packets of a recording, and the turns of a stream (1,000,000)
  --instructions   also counts instructions with Valgrind: those of the whole run, start included, divided by the packets or bytes
  --only ROW,..    of the rows: down, listed, compact, paired, type 2, up, back, show, show --bytes, endpoint

The exit code is 1 if the programs write different bytes, and 2 if something is missing or a run fails."""
import argparse
import filecmp
import os
import re
import shutil
import statistics
import subprocess
import sys
import tempfile
from dataclasses import dataclass

import recordings

HERE = os.path.dirname(os.path.abspath(__file__))
SETUP = os.path.join(os.path.dirname(HERE), "examples", "endpoint.toml")
PLAIN_RUST = os.path.join(HERE, "plain_rust")
WORDS_OF_TYPE = [1, 1, 1, 2, 2, 4, 1, 1, 2, 2, 2, 3, 3, 4, 4, 4]
FOLDER = "FOLDER"
DOWN = ["translate", "down", "--folder", FOLDER]
# The columns of the table: title, width, decimal places.
TIMES = [("program ms", 12, 2), ("Rust ms", 9, 2), ("median", 8, 2), ("best", 6, 2), ("bytes written", 15, 0)]
COUNTS = [("instructions a unit", 21, 1), ("Rust", 9, 1), ("ratio", 7, 2)]


class Failed(Exception):
    """Something is missing, or a run failed."""


@dataclass
class Row:
    """What is measured: a recording, the words of each program, the row to which the program is compared as well, and whether it writes
    nothing."""

    name: str
    recording: str
    program: list
    plain_rust: list = None
    beside: str = None
    is_silent: bool = False


ROWS = [
    Row("down", "mixed.ump", DOWN, ["rust_down", "--folder", FOLDER]),
    Row("listed", "listed.ump", DOWN, ["rust_down", "--folder", FOLDER]),
    Row("compact", "mixed.ump", [*DOWN, "--compact"], ["rust_down", "--folder", FOLDER, "--compact"], beside="down"),
    Row("paired", "mixed.ump", [*DOWN, "--paired"], beside="down"),
    Row("type 2", "type2.ump", DOWN, ["rust_down", "--folder", FOLDER]),
    Row("up", "mixed.midi1", ["translate", "up"], ["rust_up"]),
    Row("back", "mixed.midi1", ["translate", "back"], ["rust_back"]),
    Row("show", "mixed.ump", ["show"], ["rust_show"]),
    Row("show --bytes", "mixed.midi1", ["show", "--bytes"], ["rust_show_bytes"]),
    Row("endpoint", "endpoint.ump", ["endpoint", SETUP], is_silent=True),
]


def build_plain_rust():
    if not shutil.which("cargo"):
        raise Failed("this machine has no cargo, which builds plain_rust/")
    words = ["cargo", "build", "--release", "--offline", "--quiet", "--manifest-path", f"{PLAIN_RUST}/Cargo.toml"]
    if subprocess.run(words, env={**os.environ, "CARGO_TARGET_DIR": f"{PLAIN_RUST}/target"}).returncode:
        raise Failed("cargo can't build plain_rust/")


class Runner:
    """One of the two programs on one row: its words, and the folder and files where its output goes."""

    def __init__(self, home, row, who, words):
        self.row, self.who = row, who
        self.place = os.path.join(home, f"{row.name}.{who}".replace(" ", "_"))
        self.folder = os.path.join(self.place, "folder")
        os.makedirs(self.folder)
        self.words = [self.folder if word == FOLDER else word for word in words]
        self.input = os.path.join(home, row.recording)
        self.times = []

    def run(self, *before):
        """Runs it, and returns its processor time in seconds."""
        with open(self.input, "rb") as source, open(f"{self.place}/output", "wb") as output, open(f"{self.place}/listing", "wb") as listing:
            process = subprocess.Popen([*before, *self.words], stdin=source, stdout=output, stderr=listing)
            _, status, used = os.wait4(process.pid, 0)
        process.returncode = os.waitstatus_to_exitcode(status)
        if process.returncode:
            raise Failed(f"row {self.row.name}: {self.who} ended with {process.returncode}")
        return used.ru_utime + used.ru_stime

    def files(self):
        return ["output", "listing", *(f"folder/{name}" for name in sorted(os.listdir(self.folder)))]

    def written(self):
        """The bytes that the last run wrote, without the listing."""
        return sum(os.path.getsize(f"{self.place}/{name}") for name in self.files() if name != "listing")

    def instructions(self):
        counted = f"{self.place}/counted"
        self.run("valgrind", "-q", "--tool=cachegrind", "--cache-sim=no", f"--cachegrind-out-file={counted}")
        with open(counted, encoding="utf-8") as file:
            return int(re.search(r"(?m)^summary: *(\d+)", file.read())[1])


class Measurement:
    """A row with its runners, and what was measured of it."""

    def __init__(self, home, program, row):
        self.row = row
        self.program = Runner(home, row, "the program", [program, *row.program])
        self.plain_rust = None
        if row.plain_rust:
            name, *words = row.plain_rust
            self.plain_rust = Runner(home, row, "plain Rust", [f"{PLAIN_RUST}/target/release/{name}", *words])
        self.runners = [runner for runner in (self.program, self.plain_rust) if runner]
        self.units = units_of(self.program.input)
        self.counts = []

    def differences(self):
        """Runs both once, and yields what they wrote differently."""
        for runner in self.runners:
            runner.run()
        name = self.row.name
        if self.row.is_silent and self.program.written():
            yield f"{name}: the program wrote replies to packets that need none"
        if self.plain_rust:
            if self.program.files() != self.plain_rust.files():
                yield f"{name}: they wrote different files"
            for file in sorted({*self.program.files()} & {*self.plain_rust.files()}):
                if not filecmp.cmp(f"{self.program.place}/{file}", f"{self.plain_rust.place}/{file}", shallow=False):
                    yield f"{name}: {file} differs"

    def round(self, number):
        for runner in self.runners if number % 2 == 0 else self.runners[::-1]:
            runner.times.append(runner.run())

    def count(self):
        self.counts = [runner.instructions() for runner in self.runners]

    def time_cells(self):
        """The cells of TIMES; None is one that this row doesn't have."""
        rust_best = median = best = None
        if self.plain_rust:
            rust_best = min(self.plain_rust.times) * 1e3
            median, best = ratios(self.program.times, self.plain_rust.times)
        return [min(self.program.times) * 1e3, rust_best, median, best, self.program.written()]

    def count_cells(self):
        """The cells of COUNTS."""
        ours, theirs = [*self.counts, None][:2]
        return [ours / self.units, theirs / self.units if theirs else None, ours / theirs if theirs else None]


def units_of(path):
    """The packets of a recording, or the bytes of a stream."""
    if not path.endswith(".ump"):
        return os.path.getsize(path)
    with open(path, "rb") as file:
        words = file.read()
    at = count = 0
    while at < len(words):
        at += 4 * WORDS_OF_TYPE[words[at] >> 4]
        count += 1
    return count


def ratios(ours, theirs):
    """The median of the ratios of the rounds, and the ratio of the best times."""
    return statistics.median(one / other for one, other in zip(ours, theirs)), min(ours) / min(theirs)


def line_of(cells, columns):
    return "".join(f"{'-':>{width}}" if cell is None else f"{cell:>{width},.{places}f}" for cell, (_, width, places) in zip(cells, columns))


def print_table(measured, has_counts):
    columns = TIMES + COUNTS if has_counts else TIMES
    print(f"{'row':15}{'units':>20}" + "".join(f"{title:>{width}}" for title, width, _ in columns))
    for one in measured:
        unit = "packets" if one.row.recording.endswith(".ump") else "bytes"
        cells = one.time_cells() + (one.count_cells() if has_counts else [])
        print(f"{one.row.name:15}{one.units:>12,} {unit:7}" + line_of(cells, columns))
    for one in measured:
        if one.row.beside:
            print_beside(one, next(other for other in measured if other.row.name == one.row.beside))


def print_beside(one, other):
    median, best = ratios(one.program.times, other.program.times)
    line = f"{one.row.name} / {other.row.name}, both of the program: median {median:.2f}, best {best:.2f}"
    print(line + (f", instructions {one.counts[0] / other.counts[0]:.2f}" if one.counts else ""))


def measure(program, rows, given):
    """Returns the exit code."""
    if any(row.plain_rust for row in rows):
        build_plain_rust()
    memory = "/dev/shm" if os.path.isdir("/dev/shm") else None
    with tempfile.TemporaryDirectory(dir=memory, prefix="larboardyuzu-bench-") as home:
        recordings.write(home, {row.recording for row in rows}, given.packets)
        os.sched_setaffinity(0, {max(os.sched_getaffinity(0))})
        measured = [Measurement(home, program, row) for row in rows]
        differences = [line for one in measured for line in one.differences()]
        if differences:
            print("\n".join(differences))
            return 1
        for number in range(given.rounds):
            for one in measured:
                one.round(number)
        for one in measured if given.instructions else ():
            one.count()
        print(f"{processor()}; rounds: {given.rounds}; where there are two programs, they wrote the same bytes")
        print_table(measured, given.instructions)
    return 0


def processor():
    with open("/proc/cpuinfo", encoding="utf-8") as file:
        said = dict(re.findall(r"(?m)^(model name|cpu family|model)\s*: (.*)$", file.read()))
    return f"{said.get('model name', 'unknown processor')} (family {said.get('cpu family', '?')}, model {said.get('model', '?')})"


def rows_of(only):
    """The rows of these names and those beside which they are shown, in the order of the table."""
    names = [name.strip() for name in only.split(",")] if only else [row.name for row in ROWS]
    unknown = [name for name in names if name not in [row.name for row in ROWS]]
    if unknown:
        raise Failed(f"there is no row {', '.join(unknown)}")
    wanted = {*names, *(row.beside for row in ROWS if row.name in names)}
    return [row for row in ROWS if row.name in wanted]


def parse(words):
    ask = argparse.ArgumentParser(usage=__doc__)
    ask.add_argument("program")
    ask.add_argument("--rounds", type=int, default=12)
    ask.add_argument("--packets", type=int, default=1_000_000)
    ask.add_argument("--instructions", action="store_true")
    ask.add_argument("--only")
    return ask.parse_args(words)


def main(words):
    if not words:
        print(__doc__, file=sys.stderr)
        return 2
    given = parse(words)
    try:
        if given.rounds < 1 or given.packets < 1:
            raise Failed("there has to be a round and a packet")
        if not os.access(given.program, os.X_OK):
            raise Failed(f"{given.program} is no program")
        if given.instructions and not shutil.which("valgrind"):
            raise Failed("this machine has no valgrind, which counts instructions")
        return measure(os.path.abspath(given.program), rows_of(given.only), given)
    except Failed as fault:
        print(f"run.py: {fault}", file=sys.stderr)
        return 2


if __name__ == "__main__":
    sys.exit(main(sys.argv[1:]))
