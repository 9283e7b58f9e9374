#!/usr/bin/env python3
"""fingerprints.py FILE..: counts a few habits of a text, per 1,000 words of prose.

In a Markdown page, code blocks, code in a line, headings and the targets of links are left out, and each cell of a table counts as a
sentence of its own. In a source, the comments are the prose; of a source in Rattle, the docstrings alone. In another file, such as a help
text or a man page, it is every line except commands. Each file has a row. The last row but one is for all files together, and the last has
the values of ripgrep 13's man page.

A single page of 300 words says little, and ten pages say a lot. The figures are a smoke detector, and no proof of good prose.
`tools/layout.py check` holds each group of files to limits."""
import os
import re
import sys

# Each column is a name, and the words that it counts.
COUNTED = {"what": "what", "its": "its", "of": "of", "when+if": "when if", "you+can": "you your can", "has": "has", "takes": "take takes"}
NAMES = [*COUNTED, "words a sentence", "semicolons"]
# Measured with this program on `man rg` of ripgrep 13.0.0 as plain text, without headings, option names and examples.
RIPGREP = {"words": 9033, "what": 0.1, "its": 2.3, "of": 15.3, "when+if": 21.1, "you+can": 14.2, "has": 1.4, "takes": 0.3,
           "words a sentence": 13.1, "semicolons": 1.3}
WORD = r"[A-Za-z][A-Za-z']*"
SOURCES = (".h", ".hpp", ".rs", ".c", ".cpp")


def of_markdown(text):
    text = re.sub(r"(?ms)^```.*?^```$", "\n", text)
    text = re.sub(r"(?ms)^~~~.*?^~~~$", "\n", text)
    text = re.sub(r"(?m)^(?: {4,}|\t)(?![-*\d]).*\n(?=\n|(?: {4}))", "\n", text)
    text = re.sub(r"(?m)^#.*$", "\n", text)
    text = re.sub(r"(?m)^\|[-| :]+\|$", "\n", text)
    # A row of a table: each cell is a piece of prose of its own.
    text = re.sub(r"(?m)^\|(.*)\|$", lambda row: "\n" + re.sub(r"(?<!\\)\|", "\n\n", row.group(1)) + "\n", text)
    text = re.sub(r"\]\([^)]*\)", "]", text)
    return text.replace("*", "")


def of_source(text):
    found = re.findall(r"/\*.*?\*/|//[^\n]*(?:\n\s*//[^\n]*)*", text, re.S)
    lines = "\n\n".join(re.sub(r"(?m)^\s*(?:/\*|\*/|\*|//[/!]?)|\*/$", "", it) for it in found)
    return re.sub(r"(?m)^ {4,}.*$", "", lines)


def of_rattle(text):
    found = re.findall(r"(?m)^[ \t]*//[/!].*(?:\n[ \t]*//[/!].*)*", text)
    lines = "\n\n".join(re.sub(r"(?m)^[ \t]*//[/!]", "", it) for it in found)
    return re.sub(r"(?ms)^ ?```.*?^ ?```$", "\n", lines)


def of_plain(text):
    text = re.sub(r"(?m)^\.(?:Nm|Nd|Dd|Dt|Os|Sh|Ss|Fl|Cm|Ar|It|Bl|El|Pp|Xr|Dl|Bd|Ed).*$", "\n", text)
    return re.sub(r"(?m)^(?: {2,}\$|\t).*$", "\n", text)


def prose(path):
    with open(path, encoding="utf-8") as it:
        text = it.read()
    kind = os.path.splitext(path)[1]
    part = {".md": of_markdown, ".rt": of_rattle, **dict.fromkeys(SOURCES, of_source)}.get(kind, of_plain)
    return re.sub(r"`[^`\n]*`", "CODE", part(text))


def measure(text):
    """The figures of this text, and its number of words."""
    words = [it.lower() for it in re.findall(WORD, text)]
    whole = max(1, len(words))
    found = {name: 1000 * sum(words.count(it) for it in which.split()) / whole for name, which in COUNTED.items()}
    # A sentence ends at . ! ? : before a space, or at an empty line. Pieces of fewer than four words, such as cells, aren't counted.
    pieces = [len(re.findall(WORD, it)) for it in re.split(r"[.!?:](?=\s)|\n\s*\n", text)]
    pieces = [it for it in pieces if it > 3]
    found["words a sentence"] = sum(pieces) / max(1, len(pieces))
    found["semicolons"] = 1000 * text.count(";") / whole
    return found, len(words)


def measure_files(paths):
    """The figures of these files together, and their number of words."""
    return measure("\n\n".join(prose(it) for it in paths))


def row(name, figures, count):
    return f"{name[-32:]:32} {count:6} " + " ".join(f"{figures[it]:{max(6, len(it))}.1f}" for it in NAMES)


def main(paths):
    if not paths:
        print(__doc__, file=sys.stderr)
        return 2
    print(f"{'':32} {'words':>6} " + " ".join(f"{it:>6}" for it in NAMES))
    print(*[row(it, *measure_files([it])) for it in paths], row("all of them", *measure_files(paths)), sep="\n")
    print(row("ripgrep 13's man page", RIPGREP, RIPGREP["words"]))
    return 0


if __name__ == "__main__":
    sys.exit(main(sys.argv[1:]))
