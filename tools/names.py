#!/usr/bin/env python3
"""names.py check: compares the names on the pages with those of the sources.

It prints each name that a page of docs/ gives and no source has, and each file of specs/ that doesn't begin with a comment on what it defines:
`tools/reading_list.py where NAME` shows that comment for a definition that has none of its own. The exit code is 1 if it printed any."""
import glob
import os
import re
import sys

TOP = os.path.dirname(os.path.dirname(os.path.abspath(__file__)))
WORD = r"[A-Za-z_][A-Za-z0-9_]*"
# The pages that name definitions, clauses and functions.
PAGES = [*(f"docs/{it}" for it in ("crates", "headline", "library", "limits", "meaning", "passes", "proved", "walks", "why-trust-it")),
         "tools/when-a-proof-fails"]
# What a page may name that no source of this repository has: names of the kit, and letters that stand for any name.
FOREIGN = {"antt", "rattle", "liblibc_c", "libos_c", "NAME", "NAMERun", "NAME_tests", "run_NAME", "PATH", "A", "B", "P", "S", "T", "Trait", "xs", "ys", "zs"}


def read(path):
    with open(path, encoding="utf-8", errors="replace") as file:
        return file.read()


def spans(path):
    """The names that a page gives: each word of what stands between backticks and is a name, or names joined by dots or colons."""
    text = re.sub(r"(?ms)^```.*?^```", "", read(path))
    text = re.sub(r"(?m)^    .*$", "", text)
    for span in re.findall(r"`([^`\n]+)`", text):
        if re.fullmatch(rf"{WORD}(?:(?:\.|::){WORD})*", span):
            yield from re.findall(WORD, span)


def known_names():
    """The names of the sources, of the files beside them, and those that a page may name all the same."""
    known = set(FOREIGN)
    for pattern in ("src/**/*.rt", "specs/**/*.antt", "proofs/**/*.antt", "must-fail/*.edit"):
        for path in glob.glob(f"{TOP}/crates/*/{pattern}", recursive=True):
            known |= set(re.findall(WORD, read(path))) | {os.path.basename(path).split(".")[0]}
    for pattern in ("crates/*", "include/*", "c/**/*", "examples/**/*", "tools/*", "docs/*", "completions/*", "*", ".ci/*"):
        for path in glob.glob(f"{TOP}/{pattern}", recursive=True):
            if re.search("/(out|__pycache__)(/|$)", path[len(TOP) :]):
                continue
            known |= set(re.split(r"[.]", os.path.basename(path)))
            if os.path.isfile(path) and not path.endswith((".md", ".ump", ".usb", ".bytes", ".events", ".midi2")):
                known |= set(re.findall(WORD, read(path)))
    return known


def unknown_names():
    """What a page names and no source has; a name that ends in _ stands for all that begin so."""
    known = known_names()
    for page in PAGES:
        for name in sorted(set(spans(f"{TOP}/{page}.md")) - known):
            if not (name.endswith("_") and any(word.startswith(name) for word in known)):
                yield f"{page}.md names {name}, which no source has"


def without_head():
    """The files of definitions that don't begin with a comment. Lib.antt lists the files of a crate."""
    for path in sorted(glob.glob(f"{TOP}/crates/*/specs/**/*.antt", recursive=True)):
        if os.path.basename(path) != "Lib.antt" and not read(path).startswith("--"):
            yield f"{os.path.relpath(path, TOP)} begins without a comment on what it defines"


def main(words):
    if words != ["check"]:
        print(__doc__, file=sys.stderr)
        return 2
    found = [*unknown_names(), *without_head()]
    print(*found, f"names.py: {len(found)} to mend", sep="\n")
    return 1 if found else 0


if __name__ == "__main__":
    sys.exit(main(sys.argv[1:]))
