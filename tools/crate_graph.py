#!/usr/bin/env python3
"""crate_graph.py COMMAND: what stands on what, by crates.txt.

  crate_graph.py above [CRATES_TXT..]   of each crate, how many stand above it: those that are proved again when it changes. Of several
                                        such files, a column each
  crate_graph.py above-of CRATE..       the crates that stand above any of these
  crate_graph.py map                    by layer, each crate, how many stand above it, and the crates that it stands on directly
  crate_graph.py layers                 the map of docs/crates.md: the layers, from the top down, each with the layers that its crates name
  crate_graph.py cost                   by the history, how many lines of the present tree a touch of a crate has had proved again, on
                                        average: those of the crate that a commit touched, and of those above it
  crate_graph.py check                  compares docs/crates.md and crates.txt: the layers, that each crate has its row, and that a row links
                                        to a source of its crate; ends with 1 if they differ
"""
import collections
import os
import re
import subprocess
import sys
import textwrap

TOP = os.path.dirname(os.path.dirname(os.path.abspath(__file__)))
ROW = re.compile(r"(\w+)(?: staticlib)?:(.*)")


def read(path):
    with open(path, encoding="utf-8") as file:
        return file.read()


class Graph:
    """The crates of a crates.txt: what each names, the layer in which it stands, and what follows from both."""

    def __init__(self, path):
        self.layers = []
        named = {}
        for line in read(path).splitlines():
            if line.startswith("# ---- "):
                self.layers.append((line[7:], []))
            elif (row := ROW.match(line.partition("#")[0])):
                named[row[1]] = set(row[2].split())
                if self.layers:
                    self.layers[-1][1].append(row[1])
        # what isn't a row is a library of the kit
        self.named = {it: {other for other in others if other in named} for it, others in named.items()}
        self.below = {}
        for it in self.named:
            self.fill_below(it)
        self.above = {it: {other for other in self.named if it in self.below[other]} for it in self.named}

    def fill_below(self, it):
        if it not in self.below:
            self.below[it] = set()
            for other in self.named[it]:
                self.fill_below(other)
                self.below[it] |= {other} | self.below[other]

    def on(self, it):
        """The crates that it stands on directly: those that it names and that no other of these stands on."""
        return sorted(other for other in self.named[it] if not any(other in self.below[one] for one in self.named[it]))

    def height(self, it):
        return 1 + max((self.height(other) for other in self.named[it]), default=0)


def above(paths):
    graphs = [Graph(path) for path in paths]
    print(f"{'crates':22}" + "".join(f"{len(one.named):6}" for one in graphs))
    print(f"{'longest chain':22}" + "".join(f"{max(map(one.height, one.named)):6}" for one in graphs))
    names = {it for one in graphs for it in one.named}
    most = {it: max(len(one.above.get(it, ())) for one in graphs) for it in names}
    for it in sorted(names, key=lambda it: (-most[it], it)):
        print(f"{it:22}" + "".join(f"{len(one.above[it]) if it in one.named else '-':>6}" for one in graphs))


def above_of(names):
    graph = Graph(f"{TOP}/crates.txt")
    unknown = [name for name in names if name not in graph.named]
    if unknown:
        print(f"crate_graph.py: there is no crate {', '.join(unknown)} in crates.txt", file=sys.stderr)
        return 2
    for it in sorted(set().union(*(graph.above[name] for name in names)) - set(names)):
        print(it)
    return 0


def drawn():
    graph = Graph(f"{TOP}/crates.txt")
    rows = []
    for title, names in graph.layers:
        rows += ["", title]
        for it in names:
            rows.append(f"  {it:20}{len(graph.above[it]):3}  {', '.join(graph.on(it))}".rstrip())
    return "\n".join(rows[1:])


def proved_lines(it):
    """How many lines of a crate are proved or cited by a proof: its `.rt` and `.antt` files, those that `rt` makes left out."""
    count = 0
    for folder, inner, names in os.walk(f"{TOP}/crates/{it}"):
        inner[:] = [one for one in inner if one != "out"]
        count += sum(len(read(f"{folder}/{name}").splitlines()) for name in names if name.endswith((".rt", ".antt")))
    return count


def git(*words):
    return subprocess.run(["git", "-C", TOP, *words], capture_output=True, text=True, check=True).stdout


def touches(names):
    """How many commits touched each crate of these names, in a file other than its rows: a row is data, and needs no proof."""
    counts = collections.Counter()
    for commit in git("log", "--no-merges", "--name-only", "--format=%x00", "--", "crates").split("\0"):
        counts.update(set(re.findall(r"(?m)^crates/(\w+)/(?!data/)", commit)) & names)
    return counts


def cost():
    graph = Graph(f"{TOP}/crates.txt")
    try:
        counts = touches(set(graph.named))
        is_shallow = git("rev-parse", "--is-shallow-repository").strip() == "true"
    except (OSError, subprocess.CalledProcessError):
        print("crate_graph.py: `cost` needs git and the history of the repository", file=sys.stderr)
        return 2
    if is_shallow:
        print("This clone is shallow, so only the commits that it has are counted: `git fetch --unshallow` brings the others.")
    own = {it: proved_lines(it) for it in graph.named}
    lines = {it: own[it] + sum(own[other] for other in graph.above[it]) for it in graph.named}
    total = sum(counts[it] * lines[it] for it in graph.named)
    print(f"{'crate':22}{'touches':>8}{'lines with those above':>24}{'share':>8}")
    for it in sorted(counts, key=lambda it: (-counts[it] * lines[it], it)):
        print(f"{it:22}{counts[it]:8}{lines[it]:24}{counts[it] * lines[it] / total:8.1%}")
    print(f"A touch has had {total // max(sum(counts.values()), 1):,} of {sum(own.values()):,} lines proved again, on average.")
    return 0


def spans(numbers):
    """Numbers in order, three or more in a row as one span."""
    found = []
    for number in sorted(numbers):
        if found and number == found[-1][-1] + 1:
            found[-1].append(number)
        else:
            found.append([number])
    return " ".join(f"{one[0]}-{one[-1]}" if len(one) > 2 else " ".join(map(str, one)) for one in found)


def layers(graph):
    """The layers from the top down, each with the numbers of those that its crates name."""
    number = {it: n for n, (_, names) in enumerate(graph.layers, 1) for it in names}
    rows = []
    for title, names in reversed(graph.layers):
        own = number[names[0]]
        on = {number[other] for it in names for other in graph.named[it]} - {own}
        head = f"{own:2}  {re.split('[:,.]', title)[0]}"
        rows += ["", f"{head:50}on {spans(on)}" if on else head, *textwrap.wrap(" ".join(names), 96, initial_indent="    ", subsequent_indent="    ")]
    return "\n".join(rows[1:])


def page_rows(page):
    """The rows of the table on a page that begin with crates: these, and the rest of the row."""
    for cell, rest in re.findall(r"(?m)^\| (`\w+`(?:, `\w+`)*) \|(.*)$", page):
        yield re.findall(r"`(\w+)`", cell), rest


def misplaced(graph):
    at = {it: n for n, it in enumerate(it for _, names in graph.layers for it in names)}
    for it, others in graph.named.items():
        if it not in at:
            yield f"crates.txt: {it} stands in no layer"
        yield from (f"crates.txt: {it} stands before {other}, which it names" for other in sorted(others) if at.get(other, 0) > at.get(it, 0))


def check():
    graph = Graph(f"{TOP}/crates.txt")
    page = read(f"{TOP}/docs/crates.md")
    faults = [*misplaced(graph)]
    has = []
    for names, rest in page_rows(page):
        has += names
        faults += [f"docs/crates.md: the row of {names[0]} links to another crate" for one in re.findall(r"\.\./crates/(\w+)/", rest) if one not in names]
    faults += [f"docs/crates.md: no row tells of {it}" for it in graph.named if it not in has]
    faults += [f"docs/crates.md: there is no crate {it}" for it in has if it not in graph.named]
    faults += [f"docs/crates.md: {it} has two rows" for it in sorted({it for it in has if has.count(it) > 1})]
    if f"```\n{layers(graph)}\n```" not in page:
        faults.append("docs/crates.md: the map isn't the one that `tools/crate_graph.py layers` prints")
    for fault in faults:
        print(fault)
    print(f"crate_graph.py: {len(graph.named)} crates, {len(faults)} to mend")
    return 1 if faults else 0


def main(words):
    if words and words[0] == "above":
        return above(words[1:] or [f"{TOP}/crates.txt"])
    if len(words) > 1 and words[0] == "above-of":
        return above_of(words[1:])
    if words == ["map"]:
        return print(drawn())
    if words == ["layers"]:
        return print(layers(Graph(f"{TOP}/crates.txt")))
    if words == ["cost"]:
        return cost()
    if words == ["check"]:
        return check()
    print(__doc__.strip(), file=sys.stderr)
    return 2


if __name__ == "__main__":
    try:
        sys.exit(main(sys.argv[1:]))
    except BrokenPipeError:
        # Whoever read the table has seen enough of it.
        os.dup2(os.open(os.devnull, os.O_WRONLY), sys.stdout.fileno())
