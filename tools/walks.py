#!/usr/bin/env python3
"""walks.py COMMAND: how long the walks of docs/walks.md are.

  walks.py counts    of each walk, how many hops its table has, and to how many crates their links lead
  walks.py check     compares these with the counts that the page gives, and that the hops are numbered in order; ends with 1 if any differs
"""
import os
import re
import sys

TOP = os.path.dirname(os.path.dirname(os.path.abspath(__file__)))
SAID = re.compile(r"\*\*(\d+)\s+hops,\s+(\d+)\s+crates\.\*\*")


def walks():
    """The sections of the page that have hops: the title, the text, the number of each hop, and the crates."""
    with open(f"{TOP}/docs/walks.md", encoding="utf-8") as file:
        sections = re.split(r"(?m)^## ", file.read())[1:]
    for text in sections:
        rows = re.findall(r"(?m)^\| (\d+) \| \[`[^`]+`\]\(\.\./crates/(\w+)/", text)
        if rows:
            yield text.partition("\n")[0], text, [int(number) for number, _ in rows], {crate for _, crate in rows}


def faults():
    for title, text, numbers, crates in walks():
        said = SAID.search(text)
        if not said or (int(said[1]), int(said[2])) != (len(numbers), len(crates)):
            yield f"docs/walks.md, {title}: it has {len(numbers)} hops and {len(crates)} crates"
        if numbers != [*range(1, len(numbers) + 1)] or len(numbers) != len(re.findall(r"(?m)^\| \d+ ", text)):
            yield f"docs/walks.md, {title}: its hops aren't numbered in order, each with a link to its call"


def main(words):
    if words == ["counts"]:
        for title, _, numbers, crates in walks():
            print(f"{title}: {len(numbers)} hops, {len(crates)} crates")
        return 0
    if words == ["check"]:
        found, every = [*faults()], len([*walks()])
        print(*found, f"walks.py: {every} walks, {len(found)} to mend", sep="\n")
        return 1 if found or not every else 0
    print(__doc__.strip(), file=sys.stderr)
    return 2


if __name__ == "__main__":
    sys.exit(main(sys.argv[1:]))
