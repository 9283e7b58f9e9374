#!/usr/bin/env python3
"""reading_list.py [--files | --crates] STATEMENT: what you read to check a statement, in the order of reading.

A STATEMENT is a definition of specs/, a public function, or a clause of one: IsTranslation, run.whole, or with its crate
midi_commands.run.whole. The list has the definitions that the statement reaches, directly or through others, and the types of the
code that these name. Lines are those of definitions, without comments and blank lines.

  reading_list.py STATEMENT             each file, with where its definitions stand
  reading_list.py --files STATEMENT     each file, with its number of lines
  reading_list.py --crates STATEMENT    each crate, with its number of lines
  reading_list.py where NAME..          where definitions of this name stand, each with the comment above it, or with that of its file
  reading_list.py check                 compares what the pages of docs/ say: each call of this script with what it prints, each block of
                                        kind `antt` with the definitions, and the names in each link to a source with that file; ends
                                        with 1 if any differs

Names are followed by their spelling, so a variable that is called as a definition may add that definition. None is left out.
"""
import glob
import os
import re
import signal
import sys

TOP = os.path.dirname(os.path.dirname(os.path.abspath(__file__)))
NAME = r"[^\W\d][\w']*"
PATH = rf"{NAME}(?:\.{NAME})*"
HEAD = re.compile(rf"( *)(?:(?:abbrev|unfoldable)(?: pub)?|pub (record|data)|pub(?! use)) ({NAME})(?= |$)")
USE = re.compile(rf"Rattle\.(\w+)\.specs\.({PATH})(?:\.\{{([^}}]*)\}}| as (\w+))?")
CONSTRUCTOR = re.compile(rf" +({NAME}) :")


def read(path):
    with open(path, encoding="utf-8") as file:
        return file.read()


def relative(path):
    return os.path.relpath(path, TOP)


def imports(uses):
    """The names that these lines of `use` bring in: each with the module and the name there, or none for a whole module."""
    found = {}
    for crate, module, names, alias in uses:
        for one in (names or "").split(","):
            name, _, other = one.strip().partition(" as ")
            if name:
                found[other or name] = (crate, module), name
        if not names:
            found[alias or module.rpartition(".")[2]] = (crate, module), None
    return found


class Definition:
    """A definition of a file: where it begins, its kind, its lines with their numbers, and what encloses it."""

    def __init__(self, key, kind, indent, begin, enclosing):
        self.key, self.kind, self.indent, self.begin = key, kind, indent, begin
        self.lines = {}
        self.enclosing = enclosing

    def names(self):
        """The names in its text and in the heads of the blocks around it, but for its comments."""
        text = "\n".join([*self.enclosing, *self.lines.values()])
        return set(re.findall(PATH, re.sub(r"--.*", "", text)))


class Module:
    """A file of specs/: its definitions, the constructors of its types, and what it takes from others."""

    def __init__(self, path, key):
        self.path, self.key = path, key
        self.definitions, self.owners = {}, {}
        text = read(path)
        self.text = text.split("\n")
        self.imports = imports(USE.findall("\n".join(re.findall(r"(?m)^(?:pub )?use .*$", text))))
        self.fill()

    def fill(self):
        current, blocks = None, []
        for number, line in enumerate(self.text, 1):
            bare, indent = line.strip(), len(line) - len(line.lstrip())
            if not bare or bare.startswith("--") or re.match("(pub )?use ", bare):
                continue
            head = HEAD.match(line)
            if current and current.kind and indent > current.indent:
                head = None
            if head or bare.startswith("module "):
                blocks = [it for it in blocks if it[0] < indent]
                current = None
            if bare.startswith("module "):
                blocks.append((indent, line))
            elif head:
                current = Definition((*self.key, head[3]), head[2], indent, number, [it[1] for it in blocks])
                self.definitions[head[3]] = current
            if current:
                current.lines[number] = line
                if current.kind == "data" and not head and (one := CONSTRUCTOR.match(line)):
                    self.owners[one[1]] = current


class Sources:
    """The definitions of all crates, and what each reaches."""

    def __init__(self):
        self.order = re.findall(r"(?m)^(\w+)(?: staticlib)?:", read(f"{TOP}/crates.txt"))
        self.modules = {}
        for path in sorted(glob.glob(f"{TOP}/crates/*/specs/**/*.antt", recursive=True)):
            crate, _, name = relative(path)[len("crates/"):-len(".antt")].split("/", 2)
            key = crate, name.replace("/", ".")
            self.modules[key] = Module(path, key)

    def find(self, module, name, depth=0):
        """The definition that a name of a module is, or the type of the code, or none."""
        if "declared" in module[1].split("."):
            return type_of_code(module)
        here = self.modules.get(module)
        if here is None or depth > 8:
            return None
        if name in here.definitions:
            return here.definitions[name]
        if name in here.owners:
            return here.owners[name]
        if name in here.imports:
            there, other = here.imports[name]
            return self.find(there, other, depth + 1) if other else None
        return None

    def resolve(self, module, taken, path):
        """What a path names, such as `mean1`, `channel.params` or `voice1.NoteOn`, in a module that takes these names."""
        first, *rest = path.split(".")
        if first in taken and taken[first][1] is None:
            there = taken[first][0]
            return self.find(there, rest[0] if rest else first)
        if first in taken:
            return self.find(*taken[first])
        return self.find(module, first) if module else None

    def reached(self, start):
        """The definitions that these reach, and the types of the code."""
        found, types, left = {}, set(), list(start)
        while left:
            one = left.pop()
            if isinstance(one, tuple):
                types.add(one)
            elif one.key not in found:
                found[one.key] = one
                left += self.named_by(one)
        return found, types

    def named_by(self, definition):
        module = definition.key[:2]
        every = (self.resolve(module, self.modules[module].imports, name) for name in sorted(definition.names()))
        return [it for it in every if it is not None and it is not definition]

    def in_order(self, found):
        """The modules of these definitions, each after those that it names."""
        below = {}
        for one in found.values():
            others = {it.key[:2] for it in self.named_by(one) if isinstance(it, Definition)}
            below.setdefault(one.key[:2], set()).update(others - {one.key[:2]})
        done = []

        def visit(module):
            if module not in done:
                for other in sorted(below[module], key=self.place):
                    visit(other)
                done.append(module)

        for module in sorted(below, key=self.place):
            visit(module)
        return done

    def place(self, module):
        return self.order.index(module[0]), module[1]

    def all_lines(self):
        return sum(len(it.lines) for module in self.modules.values() for it in module.definitions.values())


def type_of_code(module):
    """A type of the code that a definition names: its name, and its file."""
    crate, parts = module[0], [it for it in module[1].split(".") if it != "TheVariants"]
    return parts[-1], f"crates/{crate}/src/{'/'.join(parts[1:-1]) or 'lib'}.rt"


# ---- statements

def clauses_of(text, at):
    """The contract of a function whose name ends here: each clause with its name, which may be empty."""
    while at < len(text) and text[at] not in ";{":
        at += 1
        if re.match(r"(requires|ensures)\b", text[at:]) and not text[at - 1].isalnum():
            kind, name = re.match(r"(requires|ensures\*?)\s*(\w*)[^{]*", text[at:]).groups()
            begin = text.index("{", at)
            at = block_end(text, begin)
            yield kind, name, text[begin:at]


def block_end(text, at):
    depth = 0
    for end in range(at, len(text)):
        depth += {"{": 1, "}": -1}.get(text[end], 0)
        if depth == 0:
            return end + 1
    return len(text)


def clause_definitions(sources, crate, function, clause):
    """What the clauses of a function name, in every file that has such a function."""
    found = []
    for path in sorted(glob.glob(f"{TOP}/crates/{crate or '*'}/src/**/*.rt", recursive=True)):
        text = re.sub(r"//[^\n]*", "", read(path))
        taken = imports(USE.findall("\n".join(re.findall(r"ghost use [^;]*;", text))))
        for head in re.finditer(rf"\bpub fn {function}\b", text):
            said = [body for kind, name, body in clauses_of(text, head.end()) if kind.startswith("ensures") and clause in (None, name)]
            names = sorted({it for body in said for it in re.findall(PATH, body)})
            found += [it for it in (sources.resolve(None, taken, name) for name in names) if it is not None]
    return found


def statement(sources, words):
    """The definitions from which a statement begins: it is one, or it is what a function's clauses name."""
    parts = words.split(".")
    crate = parts.pop(0) if len(parts) > 1 and parts[0] in sources.order else None
    name, *clause = parts
    if not clause:
        modules = [module for key, module in sorted(sources.modules.items()) if crate in (None, key[0])]
        if (found := [module.definitions[name] for module in modules if name in module.definitions]):
            return found
    return clause_definitions(sources, crate, name, clause[0] if clause else None)


# ---- what is printed

def ranges(numbers):
    """Numbers of lines, those that follow each other as one range."""
    found = []
    for number in sorted(numbers):
        if found and number <= found[-1][1] + 1:
            found[-1][1] = number
        else:
            found.append([number, number])
    return ", ".join(str(a) if a == b else f"{a}-{b}" for a, b in found)


def rows(sources, found, form):
    """The rows of a list, in the order of reading."""
    modules = sources.in_order(found)
    lines = {module: [it for one in found.values() if one.key[:2] == module for it in one.lines] for module in modules}
    if form == "--crates":
        for crate in sorted({it[0] for it in modules}, key=sources.order.index):
            yield f"{sum(len(lines[it]) for it in modules if it[0] == crate):5}  {crate}"
        return
    for module in modules:
        where = f": {ranges(lines[module])}" if form is None else ""
        yield f"{len(lines[module]):5}  {relative(sources.modules[module].path)}{where}"


def reading_list(sources, words, form):
    """The list of a statement as it is printed, or none if nothing has this name."""
    start = statement(sources, words)
    if not start:
        return None
    found, types = sources.reached(start)
    files = {it[:2] for it in found}
    lines = sum(len(it.lines) for it in found.values())
    printed = [f"{lines:,} lines in {len(files)} files, of {sources.all_lines():,} in {len(sources.modules)}"]
    printed += rows(sources, found, form)
    if types and form is None:
        printed += ["types of the code:", *(f"       {path}: {name}" for name, path in sorted(types, key=lambda it: it[::-1]))]
    return "\n".join(printed)


def where(sources, names):
    """Where the definitions of these names stand, each with the comment above it."""
    for name in names:
        every = [it.definitions[name] for it in sources.modules.values() if name in it.definitions]
        if not every:
            yield f"no definition is called {name}"
        for one in every:
            module = sources.modules[one.key[:2]]
            yield f"{relative(module.path)}:{one.begin}"
            begin = one.begin - 1
            while begin and module.text[begin - 1].lstrip().startswith("--"):
                begin -= 1
            if begin == one.begin - 1:
                yield from head_comment(module)
            yield from (f"  {line.strip()}" for line in module.text[begin:one.begin])


def head_comment(module):
    """The comment at the top of a file, which says what it defines."""
    for line in module.text:
        if not line.startswith("--"):
            return
        yield f"  {line}"


# ---- the pages

def differing_calls(sources, page, text):
    for line, said in re.findall(r"(?ms)^```\n\$ tools/reading_list\.py ([^\n]*)\n(.*?)\n```$", text):
        *forms, words = line.split()
        if said != reading_list(sources, words, forms[0] if forms else None):
            yield f"{page}: `tools/reading_list.py {line}` prints something else than this page says"


def without_indent(lines):
    return "\n".join(line.strip() for line in lines)


def misquoted(sources, page, text):
    every = [without_indent(it.text) for it in sources.modules.values()]
    for quoted in re.findall(r"(?ms)^```antt\n(.*?)\n```$", text):
        if not any(without_indent(quoted.split("\n")) in it for it in every):
            yield f"{page}: no file of specs/ has the lines that begin with: {quoted.partition(chr(10))[0]}"


def broken_links(page, text):
    """Links to sources that lead nowhere, and names that a link shows and its file doesn't have."""
    for shown, target in re.findall(r"\[([^\]]*)\]\((\.\./[^)#]+)\)", text):
        path = os.path.normpath(f"{TOP}/docs/{target}")
        if not os.path.exists(path):
            yield f"{page}: a link leads to {target}, which isn't there"
        elif path.endswith((".antt", ".rt")):
            names = set(re.findall(NAME, " ".join(re.findall("`([^`]+)`", shown))))
            missing = names - set(re.findall(NAME, read(path)))
            yield from (f"{page}: a link shows {it}, which {target} doesn't have" for it in sorted(missing))


def check(sources):
    faults, calls = [], 0
    for path in sorted(glob.glob(f"{TOP}/docs/*.md")):
        page, text = relative(path), read(path)
        calls += text.count("\n$ tools/reading_list.py ")
        faults += [*differing_calls(sources, page, text), *misquoted(sources, page, text), *broken_links(page, text)]
    print(*faults, f"reading_list.py: {calls} lists on the pages, {len(faults)} to mend", sep="\n")
    return 1 if faults or not calls else 0


def main(words):
    form = words.pop(0) if words[:1] and words[0] in ("--files", "--crates") else None
    if not words or words[0].startswith("-") or (words[0] == "where") != (len(words) > 1):
        print(__doc__.strip(), file=sys.stderr)
        return 2
    sources = Sources()
    if words == ["check"]:
        return check(sources)
    if words[0] == "where":
        print(*where(sources, words[1:]), sep="\n")
        return 0
    said = reading_list(sources, words[0], form)
    print(said or f"reading_list.py: no definition, function or clause is called {words[0]}", file=sys.stdout if said else sys.stderr)
    return 0 if said else 1


if __name__ == "__main__":
    signal.signal(signal.SIGPIPE, signal.SIG_DFL)
    sys.exit(main(sys.argv[1:]))
