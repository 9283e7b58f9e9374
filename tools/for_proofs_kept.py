#!/usr/bin/env python3
"""for_proofs_kept.py check: that what the folder's name promises is so.

What stands in a folder specs/ForProofs/ serves proofs alone: a reader of contracts can pass over it. So of the sources it tells
- a file of specs/ outside such a folder that takes a name from one, by which a contract could reach it;
- a name from one in a clause of a public function, or of a function of a public trait.
It ends with 1 if it tells one."""
import glob
import os
import re
import sys

TOP = os.path.dirname(os.path.dirname(os.path.abspath(__file__)))
NAME = r"[A-Za-z_][\w'-]*"
FOLDER = r"Rattle\.\w+\.specs\.ForProofs\.(\w+)"
PUBLIC = re.compile(r"\bpub (?:const |unsafe |extern \"C\" )*fn\b")


def read(path):
    with open(path, encoding="utf-8") as file:
        return file.read()


def sources(pattern):
    return sorted(glob.glob(f"{TOP}/crates/*/{pattern}", recursive=True))


def block_end(text, at):
    """Where the block that begins at this brace ends."""
    depth = 0
    for end in range(at, len(text)):
        depth += {"{": 1, "}": -1}.get(text[end], 0)
        if depth == 0:
            return end + 1
    return len(text)


def public_functions(text):
    """Where each public function's name stands, and each function's of a public trait."""
    for one in PUBLIC.finditer(text):
        yield one.end()
    for trait in re.finditer(r"\bpub trait\b[^{]*", text):
        body = text[trait.end():block_end(text, trait.end())]
        for one in re.finditer(r"\bfn\b", body):
            yield trait.end() + one.end()


def clauses(text):
    """The clauses of each such function, with its name."""
    text = re.sub(r"//[^\n]*", "", text)
    for begin in public_functions(text):
        name, at = re.match(r"\s*(\w+)", text[begin:])[1], begin
        while at < len(text) and text[at] != ";":
            if text[at] != "{":
                at += 1
                continue
            if not re.search(r"\b(?:ensures|requires)\*?\s*\w*\s*$", text[begin:at]):
                break
            end = block_end(text, at)
            yield name, text[at:end]
            at = end


def taken(text):
    """The names that a file takes from such folders, with where they stand."""
    names = {}
    for line in re.finditer(rf"ghost use {FOLDER}(?:\.\{{([^}}]*)\}}| as (\w+))?;", text):
        for it in (line[2] or line[3] or line[1]).split(","):
            names[it.split(" as ")[-1].strip()] = line[1]
    return names


def faults():
    for path in sources("specs/**/*.antt"):
        if "/specs/ForProofs/" not in path:
            for line in re.findall(rf"(?m)^(?:pub )?use {FOLDER}.*$", read(path)):
                yield path, f"takes a name from ForProofs/{line}"
    for path in sources("src/**/*.rt"):
        text = read(path)
        names = taken(text)
        for function, clause in clauses(text) if names else ():
            for it in sorted({*re.findall(NAME, clause)} & {*names}):
                yield path, f"a clause of {function} names {it} of ForProofs/{names[it]}"


def main(words):
    if words != ["check"]:
        print(__doc__, file=sys.stderr)
        return 2
    found = [f"{os.path.relpath(path, TOP)}: {fault}" for path, fault in faults()]
    for fault in found:
        print(fault)
    files = len([path for path in sources("specs/ForProofs/*.antt")])
    print(f"for_proofs_kept.py: {files} files serve proofs alone, {len(found)} to mend")
    return 1 if found else 0


if __name__ == "__main__":
    sys.exit(main(sys.argv[1:]))
