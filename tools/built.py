#!/usr/bin/env python3
"""built.py old|sources: what a release has of what is built here, and what that is made of.

  built.py old      tells each that is older than one of its sources, and ends with 1 if there is one
  built.py sources  prints of each the sum of its sources and of the versions of the tools that make it: what has the same sum is the same,
                    byte for byte
"""
import dataclasses
import functools
import glob
import hashlib
import os
import re
import subprocess
import sys

import crate_graph

TOP = os.path.dirname(os.path.dirname(os.path.abspath(__file__)))
# The parts of a crate that its build reads.
PARTS = ("src", "specs", "proofs")
# The program and the folder of the library for C, where they aren't those of this checkout, as tools/install.sh takes them.
PROGRAM = os.environ.get("PROGRAM", "crates/midi_tool/out/midi_tool")
LIBRARY = os.environ.get("LIBRARY", "c/out")
ARM64_COMPILER = os.environ.get("CC_ARM64", "aarch64-linux-gnu-gcc")
# What is linked with the proved archive.
HEAP = ["c/heap.c", "c/one_object.sh", "c/debug_info.py", "c/interface.py", "include/larboardyuzu.h", "include/larboardyuzu_heap.h"]


def read(path):
    with open(f"{TOP}/{path}", "rb") as file:
        return file.read()


def version():
    return read("VERSION").decode().strip()


@dataclasses.dataclass
class Built:
    """What is built: its name in a release, where it lies here, its crate, the other files that its build reads, the commands that print
    the versions of its tools, and what makes it."""

    name: str
    path: str
    crate: str
    others: list
    tools: list
    by: str

    def at(self):
        return os.path.join(TOP, self.path)

    def is_there(self):
        return os.path.isfile(self.at())

    def sources(self):
        crates = {self.crate, *graph().below[self.crate]}
        found = [path for crate in crates for part in PARTS for path in glob.glob(f"{TOP}/crates/{crate}/{part}/**/*", recursive=True)]
        return sorted(os.path.relpath(path, TOP) for path in found if os.path.isfile(path)) + self.others

    def newer_source(self):
        """A source that is newer, if there is one."""
        made = os.stat(self.at()).st_mtime_ns
        return next((it for it in self.sources() if os.stat(f"{TOP}/{it}").st_mtime_ns > made), None)

    def sum_of_sources(self):
        versions = [first_line(*words) for words in (("rt", "version"), *self.tools)]
        # (of crates.txt only the rows count)
        rows = sorted((it, sorted(graph().named[it])) for it in {self.crate, *graph().below[self.crate]})
        return sum_of(self.sources(), repr((self.name, versions, rows)))


@functools.cache
def graph():
    return crate_graph.Graph(f"{TOP}/crates.txt")


@functools.cache
def first_line(*words):
    """The first line that a tool prints, or nothing where it isn't here."""
    try:
        return subprocess.run(words, capture_output=True, text=True, check=False).stdout.partition("\n")[0]
    except OSError:
        return ""


def sum_of(paths, more):
    """One sum of files, with their names and whether they can be run, and of a text."""
    total = hashlib.sha256(more.encode())
    for path in paths:
        can_run = os.access(f"{TOP}/{path}", os.X_OK)
        total.update(repr((path, can_run, hashlib.sha256(read(path)).hexdigest())).encode())
    return total.hexdigest()


def all_built():
    shared = f"liblarboardyuzu.so.{version()}"
    compiler, linker, crate = ("cc", "--version"), ("ld", "--version"), "larboardyuzu_c"
    return [
        Built("libexec/larboardyuzu", PROGRAM, "midi_tool", [], [], "make"),
        Built("lib/liblarboardyuzu.a", f"{LIBRARY}/liblarboardyuzu.a", crate, [*HEAP, "c/Makefile"], [compiler], "make -C c"),
        Built(f"lib/{shared}", f"{LIBRARY}/{shared}", crate, [*HEAP, "c/Makefile", "c/larboardyuzu.map"], [compiler, linker], "make -C c"),
        Built("lib/aarch64-linux-gnu/liblarboardyuzu.a", f"{LIBRARY}/arm64/liblarboardyuzu.a", crate, [*HEAP, "c/arm64.sh"],
              [(ARM64_COMPILER, "--version")], "make -C c arm64"),
    ]


def built():
    return [it for it in all_built() if it.is_there()]


def kit_crates(built_here):
    """The crates of the kit that are compiled into these, those that the kit's own crates use among them."""
    rows = {it[1]: it[2].split() for it in re.finditer(r"(?m)^(\w+)(?: staticlib)?:(.*?)(?:#.*)?$", read("crates.txt").decode())}
    crates = {below for it in built_here for below in (it.crate, *graph().below[it.crate])}
    waiting, found = {use for crate in crates for use in rows[crate] if use not in rows}, set()
    while waiting:
        name = waiting.pop()
        found.add(name)
        uses = re.findall(r"(?m)^dep (\w+)$", kit_file(f"rlibs/{name}.rlib/format"))
        waiting |= set(uses) - found
    return sorted(found)


def kit_file(path):
    with open(f"{kit()}/{path}", encoding="utf-8") as file:
        return file.read()


@functools.cache
def kit():
    """The folder of the kit."""
    rt = next((f"{it}/rt" for it in os.environ.get("PATH", "").split(":") if os.path.isfile(f"{it}/rt")), "/opt/rattle/bin/rt")
    return os.path.dirname(os.path.dirname(os.path.realpath(rt)))


def old():
    """What is older than a source, as lines."""
    for it in built():
        if source := it.newer_source():
            yield f"{it.path} is older than {source}: `{it.by}` builds it anew"


def main(words):
    if words == ["old"]:
        lines = list(old())
    elif words == ["sources"]:
        lines = [f"{it.sum_of_sources()}  {it.name}" for it in built()]
    else:
        print(__doc__.strip(), file=sys.stderr)
        return 2
    print(*lines, sep="\n", end="\n" * bool(lines))
    return 1 if words == ["old"] and lines else 0


if __name__ == "__main__":
    sys.exit(main(sys.argv[1:]))
