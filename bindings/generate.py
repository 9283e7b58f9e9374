#!/usr/bin/env python3
"""generate.py --check|--write: makes the parts of the bindings that follow from include/larboardyuzu.h and larboardyuzu_heap.h.

These files are made whole: bindings/rust/src/sys.rs, bindings/python/larboardyuzu/_numbers.py and _interface.py. In larboardyuzu.hpp, names.rs,
error.rs, flags.rs and _results.py only the lines between the marks `generate.py: enum ..` and `generate.py: end` are made. A sentence of Rust's
documentation stays as it is, and a new item gets the header's comment. --check compares, names each file and the first line that differs, and
ends with 1 if one does; --write writes the files."""
import os
import re
import sys
import textwrap
from typing import NamedTuple, Optional

HERE = os.path.dirname(os.path.abspath(__file__))
TOP = os.path.dirname(HERE)
PREFIX = "larboardyuzu_"
HANDLES = ("down", "up", "parser", "endpoint", "state", "sysex8", "usb")
# What an enum's numbers begin with, beside LARBOARDYUZU_.
BEGINNINGS = {"heard": "HEARD_", "fact_kind": "FACT_", "joined": "JOINED_"}
# Enums whose numbers are bytes of a struct; those of the others are arguments and results of 32 bits.
OF_BYTES = ("kind", "heard", "fact_kind", "joined")
# Limits that aren't 32 bits wide in Rust, as their uses are.
LIMITS = {"MOST_REPLY_WORDS": "usize", "MOST_SETUP_BYTES": "usize", "MOST_NAME": "usize", "MOST_LINE": "usize", "NO_CHANNEL": "u8"}
# Numbers that Rust and Python have as None, and those that Rust has as variants with a value.
AS_NONE = ("NO_LINE", "HEARD_NOTHING")
WITH_VALUE = ("DONE", "SMALL_BUFFER", "SETUP_RULE")
# `Other` is the variant for numbers that the crate doesn't know.
RUST_VARIANTS = {"JOINED_OTHER": "NoPart"}
RUST = {"uint8_t": "u8", "uint32_t": "u32", "uint64_t": "u64", "size_t": "usize", "bool": "bool", "void": "c_void"}
PYTHON = {"uint8_t": "U8", "uint32_t": "U32", "uint64_t": "U64", "size_t": "SIZE", "bool": "c_bool"}


class Item(NamedTuple):
    """A number of an enum, or a field or an argument of a type, with its comment."""

    name: str
    what: str
    comment: str


class Struct(NamedTuple):
    name: str
    comment: str
    fields: list


class Call(NamedTuple):
    section: str
    name: str
    result: str
    arguments: list


def read(path):
    with open(path, encoding="utf-8") as it:
        return it.read()


def plain(comment):
    """A comment of C as one line."""
    return " ".join(re.sub(r"(?m)^\s*\*", "", comment or "").split())


def item(text, comment=""):
    """A field or an argument of C."""
    kind, name, places = re.fullmatch(r"\s*(.*?[\s*])(\w+)(\[\d+\])?\s*", text, re.S).groups()
    return Item(name, " ".join(kind.replace("*", " * ").split()) + (places or ""), plain(comment))


class Header:
    """What the headers say, by names without their prefix."""

    def __init__(self, text, heap):
        bare = re.sub(r"/\*.*?\*/", "", text, flags=re.S)
        self.limits = re.findall(r"#define LARBOARDYUZU_(\w+) (\w+?)u\n", bare)
        self.enums = {
            name: [Item(word, number, plain(comment)) for word, number, comment in
                   re.findall(r"LARBOARDYUZU_(\w+)\s*=\s*(\d+),?[ \t]*(?:/\*(.*?)\*/)?", body, re.S)]
            for name, body in re.findall(r"enum larboardyuzu_(\w+) \{(.*?)\n\};", text, re.S)
        }
        self.structs = [it for it in self.structs_of(text) if it.name not in HANDLES]
        self.calls = list(self.calls_of(text))
        self.heap_structs = list(self.structs_of(heap))
        self.heap_calls = list(self.calls_of(heap))

    @staticmethod
    def structs_of(text):
        pattern = r"(?:/\*((?:(?!\*/).)*)\*/\n)?typedef struct larboardyuzu_(\w+) \{\n(.*?)\n\} larboardyuzu_\w+;"
        for comment, name, body in re.findall(pattern, text, re.S):
            fields = re.findall(r"([^;/]+);[ \t]*(?:/\*(.*?)\*/)?", body, re.S)
            yield Struct(name, plain(comment), [item(*it) for it in fields])

    @staticmethod
    def calls_of(text):
        section = ""
        pattern = r"(?ms)^/\* ---- (.*?) ---- \*/|^(?:LARBOARDYUZU_HEAP )?((?:larboardyuzu_)?\w+) (larboardyuzu_\w+)\(([^)]*)\);"
        for title, result, name, arguments in re.findall(pattern, text):
            section = title or section
            if name:
                yield Call(section, name.removeprefix(PREFIX), result, [item(it) for it in arguments.split(",") if it != "void"])


def without_beginning(enum, name):
    return name.removeprefix(BEGINNINGS.get(enum, ""))


def camel(word):
    return "".join(part.capitalize() for part in word.split("_"))


def number(text):
    """A number as Rust and Python write it: in groups of three digits from 10,000 on, and the version as it is."""
    return text if text.startswith("0x") else f"{int(text):_}" if int(text) >= 10_000 else str(int(text))


def limits_but_version(header):
    return [(name, number(value)) for name, value in header.limits if name != "VERSION"]


def sentence(comment):
    """A comment of the header as documentation."""
    text = re.sub(r"LARBOARDYUZU_(\w+)", r"`\1`", comment)
    text = re.sub(r"enum larboardyuzu_\w+", r"`\g<0>`", text)
    return text[:1].upper() + text[1:] + ("" if not text or text.endswith(".") else ".")


def rust_docs(comment, indent=""):
    lines = textwrap.wrap(sentence(comment), 112 - len(indent))
    return [f"{indent}/// {line}" for line in lines]


def rust_type(kind):
    """How Rust spells a type of C."""
    array = re.fullmatch(r"(\w+)\[(\d+)\]", kind)
    if array:
        return f"[{RUST[array[1]]}; {array[2]}]"
    const, name, pointer = re.fullmatch(r"(const )?(\w+)( \*)?", kind).groups()
    short = name.removeprefix(PREFIX)
    base = "Handle" if short in HANDLES else RUST.get(name) or camel(short)
    return f"*{'const' if const else 'mut'} {base}" if pointer else base


SYS_HEAD = """\
//! The C interface: the numbers, structs and calls of `include/larboardyuzu.h`, and the heap of `larboardyuzu_heap.h`.
//!
//! `bindings/generate.py` makes this file from the headers, and `c/interface.py` compares the header with the sources of
//! the library. Each constant has the name of the header without `LARBOARDYUZU_`, each `#[repr(C)]` struct the fields of
//! its counterpart.

use core::ffi::c_void;
use core::ptr::null_mut;
"""
SYS_HANDLE = """
/// A handle of any kind: `larboardyuzu_down` to `larboardyuzu_usb` are this struct in C.
#[repr(C)]
#[derive(Debug)]
pub struct Handle {
    pub memory: *mut c_void,
    /// 1 if it is open, and 0 if it is closed.
    pub is_open: usize,
}

impl Handle {
    /// `LARBOARDYUZU_CLOSED`.
    pub const CLOSED: Handle = Handle { memory: null_mut(), is_open: 0 };
}"""
SYS_HEAP = """
// larboardyuzu_heap.h. The library defines these three over `malloc`. A program that is linked with the archive may define
// all three itself, with `#[no_mangle]` (examples/rust/firmware); only calls that end in `_open` or `_close` call them."""


def sys_docs():
    """The documentation of today's sys.rs: of each struct, and of each field after its struct's name and a dot."""
    docs, held, struct = {}, [], ""
    for line in read(f"{HERE}/rust/src/sys.rs").split("\n"):
        found = re.match(r"pub struct (\w+) \{|    pub (\w+): ", line)
        if line.strip().startswith("///"):
            held.append(line)
        elif found:
            struct = found[1] or struct
            docs[found[1] or f"{struct}.{found[2]}"] = held
        if not line.strip().startswith(("///", "#[")):
            held = []
    return docs


def rust_struct(struct, docs):
    name = camel(struct.name)
    derived = "Clone, Copy, Debug" if any(it.what.endswith("*") for it in struct.fields) else "Clone, Copy, Debug, Default, PartialEq, Eq"
    yield ""
    yield from docs.get(name) or rust_docs(struct.comment)
    yield from ("#[repr(C)]", f"#[derive({derived})]", f"pub struct {name} {{")
    for field in struct.fields:
        yield from docs.get(f"{name}.{field.name}") or rust_docs(field.comment, "    ")
        yield f"    pub {field.name}: {rust_type(field.what)},"
    yield "}"


def rust_call(call):
    arguments = [f"{it.name}: {rust_type(it.what)}" for it in call.arguments]
    result = "" if call.result == "void" else f" -> {rust_type(call.result)}"
    name = PREFIX + call.name
    line = f"    pub fn {name}({', '.join(arguments)}){result};"
    if len(line) <= 120:
        return [line]
    return [f"    pub fn {name}(", *(f"        {it}," for it in arguments), f"    ){result};"]


def rust_calls(calls):
    yield from ("", 'extern "C" {')
    section = calls[0].section
    for call in calls:
        if call.section != section:
            section = call.section
            yield ""
        yield from rust_call(call)
    yield "}"


def sys_rs(header):
    yield from SYS_HEAD.split("\n")
    yield f"pub const VERSION: u32 = {dict(header.limits)['VERSION']};"
    for enum, items in header.enums.items():
        yield from ("", f"// enum larboardyuzu_{enum}")
        yield from (f"pub const {it.name}: {'u8' if enum in OF_BYTES else 'u32'} = {it.what};" for it in items)
    yield from ("", "// The limits")
    yield from (f"pub const {name}: {LIMITS.get(name, 'u32')} = {value};" for name, value in limits_but_version(header))
    yield from SYS_HANDLE.split("\n")
    docs = sys_docs()
    for struct in header.structs:
        yield from rust_struct(struct, docs)
    yield from rust_calls(header.calls)
    yield from SYS_HEAP.split("\n")
    for struct in header.heap_structs:
        yield from rust_struct(struct, docs)
    yield from rust_calls(header.heap_calls)


def numbers_py(header):
    yield '"""The numbers of include/larboardyuzu.h: the names of the header without LARBOARDYUZU_. bindings/generate.py makes this file."""'
    yield from ("", f"VERSION = {dict(header.limits)['VERSION']}")
    for enum, items in header.enums.items():
        yield from ("", f"# enum larboardyuzu_{enum}", *(f"{it.name} = {it.what}" for it in items))
    yield from ("", "# The limits", *(f"{name} = {value}" for name, value in limits_but_version(header)))


INTERFACE_HEAD = '''\
"""The structs and prototypes of include/larboardyuzu.h, as ctypes has them. bindings/generate.py makes this file. Nothing is loaded here, so that
bindings/compare.py can compare them with the header: each struct has the name of the header after larboardyuzu_, and each call the types of
its arguments."""
from ctypes import POINTER, Structure, c_bool, c_char_p, c_size_t, c_uint8, c_uint32, c_uint64, c_void_p

U8, U32, U64, SIZE = c_uint8, c_uint32, c_uint64, c_size_t


class Handle(Structure):
    """larboardyuzu_down to larboardyuzu_usb."""

    _fields_ = [("memory", c_void_p), ("is_open", SIZE)]
'''
INTERFACE_CALLS = """

HANDLE, BYTES_IN, BYTES_OUT, WORDS = POINTER(Handle), c_char_p, POINTER(U8), POINTER(U32)

# The arguments of each call; the result is a uint32_t, except of those in SIZES and of the calls that close. The bytes of an input are a bytes
# object; every other buffer is an array of ctypes."""


def python_type(kind):
    """How ctypes spells a type of C."""
    if kind == "const uint8_t *":
        return "BYTES_IN"
    array = re.fullmatch(r"(\w+)\[(\d+)\]", kind)
    if array:
        return f"{PYTHON[array[1]]} * {array[2]}"
    name, pointer = re.fullmatch(r"(?:const )?(\w+)( \*)?", kind).groups()
    short = name.removeprefix(PREFIX)
    if pointer:
        shorts = {"uint8_t": "BYTES_OUT", "uint32_t": "WORDS", **{PREFIX + it: "HANDLE" for it in HANDLES}}
        return shorts.get(name) or f"POINTER({PYTHON.get(name) or camel(short)})"
    return PYTHON.get(name) or camel(short)


def python_struct(struct):
    yield from ("", "", f"class {camel(struct.name)}(Structure):", "    _fields_ = [")
    yield from (f'        ("{it.name}", {python_type(it.what)}),' for it in struct.fields)
    yield "    ]"


def python_call(call):
    """The types of a call's arguments, as a tuple."""
    types = [python_type(it.what) for it in call.arguments]
    return f'    "{call.name}": ({", ".join(types)}{"," if len(types) == 1 else ""}),'


def interface_py(header):
    yield from INTERFACE_HEAD.rstrip("\n").split("\n")
    for struct in header.structs:
        yield from python_struct(struct)
    yield from INTERFACE_CALLS.split("\n")
    yield from ("PROTOTYPES = {", *map(python_call, header.calls), "}")
    sizes = ", ".join(f'"{it.name}"' for it in header.calls if it.result == "size_t")
    yield f"SIZES = ({sizes})"


def hpp_enum(header, enum, _):
    items = header.enums[enum]
    for it in items:
        yield f"    {camel(without_beginning(enum, it.name))} = LARBOARDYUZU_{it.name}{'' if it is items[-1] else ','}"


def results_enum(header, enum, _):
    return (f"    {without_beginning(enum, it.name)} = _numbers.{it.name}" for it in header.enums[enum] if it.name not in AS_NONE)


def documented(it, line, indent, docs):
    """An item of Rust under its documentation: that of today's file, or of the header."""
    yield from docs.get(line.split()[-1].strip(",;"), []) or rust_docs(it.comment or f"`{it.name}`", indent)
    yield line


def names_enum(header, enum, docs):
    for it in header.enums[enum]:
        if it.name not in AS_NONE:
            variant = RUST_VARIANTS.get(it.name) or camel(without_beginning(enum, it.name))
            yield from documented(it, f"        {variant} = {it.name},", " " * 8, docs)


def errors_enum(header, enum, docs):
    for it in header.enums[enum]:
        if it.name not in WITH_VALUE:
            yield from documented(it, f"    {camel(it.name)} = {it.name},", "    ", docs)


def flags_enum(header, enum, docs):
    for it in header.enums[enum]:
        yield from documented(it, f"    pub const {it.name}: Flags = Flags(sys::{it.name});", "    ", docs)


WHOLE = {
    "bindings/rust/src/sys.rs": sys_rs,
    "bindings/python/larboardyuzu/_numbers.py": numbers_py,
    "bindings/python/larboardyuzu/_interface.py": interface_py,
}
BETWEEN_MARKS = {
    "include/larboardyuzu.hpp": hpp_enum,
    "bindings/python/larboardyuzu/_results.py": results_enum,
    "bindings/rust/src/names.rs": names_enum,
    "bindings/rust/src/error.rs": errors_enum,
    "bindings/rust/src/flags.rs": flags_enum,
}
MARK = re.compile(r"\s*(?://|#) generate\.py: (?:enum larboardyuzu_(\w+)|end)$")


def docs_in(lines):
    """The documentation over each item of Rust, by the last word of its line."""
    docs, held = {}, []
    for line in lines:
        if line.strip().startswith("///"):
            held.append(line)
        else:
            docs[(line.split() or [""])[-1].strip(",;")] = held
            held = []
    return docs


def between_marks(header, lines, make):
    """The lines of a file with what stands between its marks made anew."""
    enum, replaced = None, []
    for line in lines:
        mark = MARK.match(line)
        if enum is None or mark:
            if mark and not mark[1]:
                yield from make(header, enum, docs_in(replaced))
                replaced = []
            yield line
            enum = mark[1] if mark else enum
        else:
            replaced.append(line)
    if enum is not None:
        raise ValueError(f"the mark of enum larboardyuzu_{enum} has no end")


def made(header):
    """The text of each file as it is made, by its name."""
    for name, make in WHOLE.items():
        yield name, "\n".join(make(header)) + "\n"
    for name, make in BETWEEN_MARKS.items():
        lines = read(f"{TOP}/{name}").split("\n")
        if not any(map(MARK.match, lines)):
            raise ValueError(f"{name} has no mark")
        yield name, "\n".join(between_marks(header, lines, make))


def first_difference(found: str, wanted: str) -> Optional[int]:
    """The number of the first line that differs, from 1."""
    pairs = zip([*found.split("\n"), None], [*wanted.split("\n"), None])
    return next((at for at, (one, other) in enumerate(pairs, 1) if one != other), None)


def check(header):
    wrong = 0
    for name, text in made(header):
        found = read(f"{TOP}/{name}")
        at = first_difference(found, text)
        if at is not None:
            wrong += 1
            line = (text.split("\n") + [""])[at - 1]
            print(f"{name}:{at}: the header makes {line.strip()!r} of this line: `bindings/generate.py --write` writes it")
    print(f"bindings: {len(WHOLE) + len(BETWEEN_MARKS)} files compared with what the header makes, {wrong} differ")
    return 1 if wrong else 0


def write(header):
    for name, text in made(header):
        if read(f"{TOP}/{name}") != text:
            with open(f"{TOP}/{name}", "w", encoding="utf-8") as it:
                it.write(text)
            print(f"wrote {name}")
    return 0


def main(words):
    if words not in (["--check"], ["--write"]):
        print(__doc__, file=sys.stderr)
        return 2
    header = Header(read(f"{TOP}/include/larboardyuzu.h"), read(f"{TOP}/include/larboardyuzu_heap.h"))
    return check(header) if words == ["--check"] else write(header)


if __name__ == "__main__":
    sys.exit(main(sys.argv[1:]))
