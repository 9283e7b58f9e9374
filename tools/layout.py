#!/usr/bin/env python3
"""layout.py check: prints the files of the repository that aren't as .editorconfig has them: UTF-8, lines that end with a line feed and
without spaces, a line feed at the end, and no tabs before a line except in a Makefile. Recordings are passed over.

It also prints pages that are too long: README.md and docs/*.md have at most 44,000 words together, README.md at most 3,000 words and 300
lines, and a cell of a table at most 35 words. And it prints the files of worked rows that `crates/worked_rows/args` doesn't name, which no
run would read.

And it prints habits that have grown: tools/fingerprints.py counts a few words on the pages, in the comments of the headers and bindings, and
in the docstrings of the crates, and each count stays within a limit. A limit is today's count, a little rounded. Change it only towards the
goal. The exit code is 1 if it prints any."""
import glob
import os
import re
import subprocess
import sys

import fingerprints

TOP = os.path.dirname(os.path.dirname(os.path.abspath(__file__)))
RECORDINGS = (".ump", ".midi2", ".bytes", ".usb", ".events")
MOST_WORDS, MOST_WORDS_OF_README, MOST_LINES_OF_README, MOST_WORDS_OF_A_CELL = 44_000, 3_000, 300, 35
# Of 1,000 words: the most of a habit, and the fewest of another.
GOAL_AT_MOST = {"what": 2, "its": 4, "of": 22}
GOAL_AT_LEAST = {"when+if": 12, "you+can": 6}
# Files that are counted together, and their limits of today. A change may only bring a limit nearer to the goal, or beyond it.
COUNTED = {
    "the pages": (["README.md", "CONTRIBUTING.md", "docs/*.md"], {"what": 1.2, "its": 1.5, "of": 20.8, "when+if": 12, "you+can": 6}),
    "the headers": (["include/*.h", "include/*.hpp"], {"what": 1.0, "its": 10.6, "of": 47.6, "when+if": 9, "you+can": 0.4}),
    "the bindings": (["bindings/rust/src/*.rs"], {"what": 3.5, "its": 6.6, "of": 35.8, "when+if": 7.6, "you+can": 0.2}),
    "the docstrings": (["crates/*/src/**/*.rt"], {"what": 2.6, "its": 11.0, "of": 44.5, "when+if": 13, "you+can": 0.5}),
}


def faults(name, data):
    try:
        text = data.decode("utf-8")
    except UnicodeDecodeError as error:
        return [f"not UTF-8 at byte {error.start}"]
    rules = {"a carriage return": "\r", "spaces at the end of a line": r"(?m)[ \t]+$", "no line feed at the end": r"[^\n]\Z"}
    if os.path.basename(name) != "Makefile":
        rules["a tab before a line"] = r"(?m)^ *\t"
    return [what for what, rule in rules.items() if re.search(rule, text)]


def read(path):
    with open(path, encoding="utf-8") as it:
        return it.read()


def long_cells(name, text):
    """The cells of tables that have too many words; code and the target of a link count as one word."""
    text = re.sub(r"(?ms)^```.*?^```", "", text)
    for row in re.findall(r"(?m)^\|.*\|$", text):
        for cell in row.strip("|").split(" | "):
            count = len(re.sub(r"`[^`]*`", "code", re.sub(r"\]\([^)]*\)", "]", cell)).split())
            if count > MOST_WORDS_OF_A_CELL:
                yield f"{name}: a cell has {count} words, and the most are {MOST_WORDS_OF_A_CELL}: {cell.strip()[:60]}"


def long_pages():
    """Which pages, or all together, are longer than they may be."""
    pages = {os.path.relpath(it, TOP): read(it) for it in [f"{TOP}/README.md", *sorted(glob.glob(f"{TOP}/docs/*.md"))]}
    words = sum(len(it.split()) for it in pages.values())
    readme = pages["README.md"]
    sizes = [("README.md and docs/*.md", words, MOST_WORDS, "words"), ("README.md", len(readme.split()), MOST_WORDS_OF_README, "words"),
             ("README.md", readme.count("\n"), MOST_LINES_OF_README, "lines")]
    yield from (f"{name}: {size} {unit}, and the most are {most}" for name, size, most, unit in sizes if size > most)
    for name, text in {**pages, "CONTRIBUTING.md": read(f"{TOP}/CONTRIBUTING.md")}.items():
        yield from long_cells(name, text)


def unread_rows():
    """The files of worked rows that the words of the program don't name."""
    crate = f"{TOP}/crates/worked_rows"
    for name in sorted(set(os.listdir(f"{crate}/data")) - set(read(f"{crate}/args").split())):
        yield f"crates/worked_rows/data/{name}: crates/worked_rows/args doesn't name it"


def grown_habits():
    """Which habits are more, or less, than their limits."""
    for name, (patterns, limits) in COUNTED.items():
        paths = sorted(path for it in patterns for path in glob.glob(f"{TOP}/{it}", recursive=True))
        found, _ = fingerprints.measure_files(paths)
        wrong = [("most", it) for it in GOAL_AT_MOST if found[it] > limits[it]] + [("fewest", it) for it in GOAL_AT_LEAST if found[it] < limits[it]]
        goals = {**GOAL_AT_MOST, **GOAL_AT_LEAST}
        yield from (f"{name}: {found[it]:.2f} times {it} in 1,000 words; the {which} are {limits[it]}, the goal {goals[it]}" for which, it in wrong)


def main(words):
    if words != ["check"]:
        print(__doc__, file=sys.stderr)
        return 2
    listed = subprocess.run(["git", "-C", TOP, "ls-files", "-z", "-co", "--exclude-standard"], capture_output=True, text=True, check=False)
    if listed.returncode:
        print("layout.py: left out, since this folder is no repository of git")
        return 0
    names = [it for it in listed.stdout.split("\0") if os.path.isfile(f"{TOP}/{it}") and not it.endswith(RECORDINGS)]
    wrong = 0
    for name in names:
        with open(f"{TOP}/{name}", "rb") as it:
            found = faults(name, it.read())
        wrong += bool(found)
        if found:
            print(f"{name}: {', '.join(found)}")
    long = [*long_pages(), *unread_rows(), *grown_habits()]
    print(*long, f"layout.py: {len(names)} files, {wrong + len(long)} to mend", sep="\n")
    return 1 if wrong or long else 0


if __name__ == "__main__":
    sys.exit(main(sys.argv[1:]))
