#!/usr/bin/env python3
"""inline_attributes.py WORDS_FILE CHECKOUT: prints the functions of the program and its libraries that have an inline attribute in their
sources, as LLVM's text names them without type arguments, with `always`, `never` or `cold`. WORDS_FILE is what try_words.py prints."""
import os
import re
import sys

IMPL = re.compile(r"(?:unsafe )?impl\b(?! Trait)(.*)$")
VISIBLE = r"(?:pub(?:\([^)]*\))? )?"
TRAIT = re.compile(VISIBLE + r"(?:unsafe )?trait (\w+)")
MODULE = re.compile(VISIBLE + r"mod (\w+) \{")
FUNCTION = re.compile(VISIBLE + r'(?:const )?(?:unsafe )?(?:extern "C" )?fn (\w+)')
REFERENCE = re.compile(r"^(&('\w+ )?(mut )?)")
# A line that may stand between an attribute and its function: the rest of an attribute of several lines.
CONTINUES = re.compile(r"^[\w(),:\s.]*\]?$")
KINDS = {"always": r"inline\(always\)", "never": r"inline\(never\)", "cold": r"\bcold\b"}


class Attributes:
    """The kinds of each function. LLVM's text adds the arguments of a trait to the name of its impl, so a method of such an impl is kept by
    the beginning of that name."""

    def __init__(self):
        self.by_name = {}
        self.by_beginning = {}

    def add(self, place, function, kinds):
        if place.endswith("*"):
            self.by_beginning.setdefault(function, {}).setdefault(place[:-1], set()).update(kinds)
        else:
            self.by_name.setdefault(f"{place}::{function}", set()).update(kinds)

    def of(self, name):
        if name in self.by_name:
            return self.by_name[name]
        place, _, function = name.rpartition("::")
        found = [it for it in self.by_beginning.get(function, ()) if place.startswith(it) and "::" not in place[len(it):]]
        return self.by_beginning[function][max(found, key=len)] if found else set()


def after_generics(text):
    """The head of an impl without the type parameters at its front."""
    depth = 0
    for at, sign in enumerate(text if text.startswith("<") else ""):
        if sign == "<":
            depth += 1
        elif sign == ">" and text[at - 1] != "-":
            depth -= 1
            if depth == 0:
                return text[at + 1:].strip()
    return text


def base(kind):
    """The name of a type or trait without its path and arguments; LLVM's text has Ref for a reference."""
    kind = REFERENCE.sub("Ref", kind.strip())
    return re.match(r"[\w:]*", kind)[0].split("::")[-1] or kind


def impl_name(head):
    head = after_generics(head.strip())
    trait, is_of_trait, kind = head.partition(" for ")
    if not is_of_trait:
        return base(head)
    return base(kind) + base(trait) + "*" * ("<" in trait)


class File:
    """A source while it is read: the modules, traits and impls that are open, each with its indentation, and the attributes that were
    read since the last item."""

    def __init__(self, module, into):
        self.module, self.into = module, into
        self.open, self.attributes = [], []

    def line(self, line):
        text, indent = line.strip(), len(line) - len(line.lstrip())
        if not text:
            return
        if self.open and text.startswith("}") and indent == self.open[-1][0]:
            self.open.pop()
        if text.startswith("#["):
            self.attributes.append(text)
        elif (found := IMPL.match(text)):
            self.opens(indent, impl_name(found[1]), not text.endswith("}"))
        elif (found := TRAIT.match(text) or MODULE.match(text)):
            self.opens(indent, found[1])
        elif (found := FUNCTION.match(text)):
            self.function(found[1])
        elif not text.startswith(("#", "ghost")) and not CONTINUES.match(text):
            self.attributes = []

    def opens(self, indent, name, has_body=True):
        self.attributes = []
        if has_body:
            self.open.append((indent, name))

    def function(self, name):
        said = " ".join(self.attributes)
        kinds = [kind for kind, pattern in KINDS.items() if re.search(pattern, said)]
        if kinds:
            self.into.add("::".join([self.module, *(name for _, name in self.open)]), name, kinds)
        self.attributes = []


def collect(crate, root, into):
    """Reads the sources of a crate, by the file of its root."""
    top = os.path.dirname(root)
    for folder, _, files in os.walk(top):
        for file in (it for it in files if it.endswith(".rt")):
            parts = os.path.relpath(os.path.join(folder, file), top)[:-3].split(os.sep)
            if parts[-1] in ("lib", "main", "mod"):
                parts.pop()
            reader = File("::".join([crate, *parts]), into)
            with open(os.path.join(folder, file), encoding="utf-8") as source:
                for line in re.sub(r"//[^\n]*", "", source.read()).split("\n"):
                    reader.line(line)


def of_program(words_file, checkout):
    found = Attributes()
    with open(words_file, encoding="utf-8") as file:
        words = file.read().split("\n")
    for option, word in zip(words, words[1:]):
        if option == "--lib":
            name, root = word.split("=", 1)
            collect(name.split(":")[0], root, found)
    collect("midi_tool", f"{checkout}/crates/midi_tool/src/main.rt", found)
    return found


def main(given):
    if len(given) != 2:
        print(__doc__, file=sys.stderr)
        return 2
    found = of_program(*given)
    named = {**found.by_name, **{f"{place}*::{it}": kinds for it, places in found.by_beginning.items() for place, kinds in places.items()}}
    for name in sorted(named):
        print(name, ",".join(sorted(named[name])))
    return 0


if __name__ == "__main__":
    sys.exit(main(sys.argv[1:]))
