#!/usr/bin/env python3
"""compare.py HEADER: compares the numbers, structs and calls that the bindings have with those of include/larboardyuzu.h, which
c/interface.py compares with the library: bindings/rust/src/sys.rs, bindings/python/larboardyuzu/_numbers.py and _interface.py, and the enums
of include/larboardyuzu.hpp; also the version that the bindings tell. It prints each difference; the exit code is 1 if there is one."""
import ctypes
import importlib.util
import os
import re
import sys

sys.dont_write_bytecode = True
HERE = os.path.dirname(os.path.abspath(__file__))
# The types of C, and how Rust and ctypes spell them.
RUST = {"void": "c_void", "uint8_t": "u8", "uint32_t": "u32", "uint64_t": "u64", "size_t": "usize", "bool": "bool", "uint8_t[3]": "[u8; 3]", "uint8_t[5]": "[u8; 5]"}
PYTHON = {
    "uint8_t": ctypes.c_uint8,
    "uint32_t": ctypes.c_uint32,
    "uint64_t": ctypes.c_uint64,
    "size_t": ctypes.c_size_t,
    "bool": ctypes.c_bool,
    "uint8_t[3]": ctypes.c_uint8 * 3,
    "uint8_t[5]": ctypes.c_uint8 * 5,
}
HANDLES = {"down", "up", "parser", "endpoint", "state", "sysex8", "usb"}


def read(path):
    with open(path, encoding="utf-8") as it:
        return it.read()


def field(text):
    """A field or an argument of C: its name and its type."""
    kind, name, places = re.fullmatch(r"\s*(.*?[\s*])(\w+)(\[\d+\])?\s*", text, re.S).groups()
    return name, " ".join(kind.replace("*", " * ").split()) + (places or "")


class Header:
    """The numbers, structs and calls of the header, by their names after larboardyuzu_."""

    def __init__(self, text):
        text = re.sub(r"/\*.*?\*/", "", text, flags=re.S)
        self.enums = {
            enum: {name: int(value) for name, value in re.findall(r"LARBOARDYUZU_(\w+)\s*=\s*(\d+)", body)}
            for enum, body in re.findall(r"enum larboardyuzu_(\w+) \{(.*?)\};", text, re.S)
        }
        limits = {name: int(value, 0) for name, value in re.findall(r"#define LARBOARDYUZU_(\w+) (\w+?)u\n", text)}
        self.numbers = {**limits, **{name: value for enum in self.enums.values() for name, value in enum.items()}}
        structs = re.findall(r"typedef struct \w+ \{(.*?)\} larboardyuzu_(\w+);", text, re.S)
        self.structs = {name: [field(it) for it in body.split(";") if it.strip()] for body, name in structs if name not in HANDLES}
        calls = re.findall(r"^(\w+) larboardyuzu_(\w+)\(([^)]*)\);", text, re.M)
        self.calls = {name: (result, [field(it) for it in arguments.split(",") if it != "void"]) for result, name, arguments in calls}


def differences(what, found, wanted):
    """The names whose values in two tables differ."""
    for name in sorted({*found, *wanted}):
        if found.get(name) != wanted.get(name):
            yield f"{what}: {name}: {found.get(name)}, wanted {wanted.get(name)}"


def capital(name):
    return name.capitalize()


def in_rust(kind):
    """How Rust spells a type of C."""
    kind = kind.replace("larboardyuzu_", "")
    pointer = re.fullmatch(r"(const )?(\w+) \*", kind)
    if pointer:
        to = "Handle" if pointer[2] in HANDLES else RUST.get(pointer[2], capital(pointer[2]))
        return f"*{'const' if pointer[1] else 'mut'} {to}"
    return RUST.get(kind, capital(kind))


def pairs_of_rust(text):
    return [tuple(part.strip() for part in it.split(":", 1)) for it in re.split(r",\s*(?![^\[]*\])", text) if it.strip()]


def compare_rust(header):
    text = re.sub(r"//[^\n]*", "", read(f"{HERE}/rust/src/sys.rs"))
    numbers = {name: int(value.replace("_", ""), 0) for name, value in re.findall(r"pub const (\w+): \w+ = (\w+);", text)}
    yield from differences("sys.rs", numbers, header.numbers)
    structs = {
        name: [(it.removeprefix("pub "), kind) for it, kind in pairs_of_rust(body)]
        for name, body in re.findall(r"#\[repr\(C\)\]\s*#\[derive[^\n]*\s*pub struct (\w+) \{(.*?)\n\}", text, re.S)
    }
    wanted = {capital(name): [(it, in_rust(kind)) for it, kind in fields] for name, fields in header.structs.items()}
    wanted["Handle"] = [("memory", "*mut c_void"), ("is_open", "usize")]
    heap = Header(re.sub(r"\bLARBOARDYUZU_HEAP\s+", "", read(f"{HERE}/../include/larboardyuzu_heap.h")))
    wanted |= {capital(name): [(it, in_rust(kind)) for it, kind in fields] for name, fields in heap.structs.items()}
    yield from differences("sys.rs", structs, wanted)
    calls = {
        name: (result or "void", pairs_of_rust(arguments))
        for name, arguments, result in re.findall(r"pub fn larboardyuzu_(\w+)\(([^)]*)\)(?: -> (\w+))?;", text)
    }
    wanted = {
        name: (result if result == "void" else in_rust(result), [(it, in_rust(kind)) for it, kind in arguments])
        for name, (result, arguments) in {**header.calls, **heap.calls}.items()
    }
    yield from differences("sys.rs", calls, wanted)


def loaded(name):
    """A module of the package, without the package, which would load the library."""
    spec = importlib.util.spec_from_file_location(name, f"{HERE}/python/larboardyuzu/{name}.py")
    module = importlib.util.module_from_spec(spec)
    spec.loader.exec_module(module)
    return module


def in_python(kind, interface):
    """How ctypes spells a type of C; the bytes of an input are a c_char_p. A type that the bindings don't know stays its name."""
    kind = kind.replace("larboardyuzu_", "")
    if kind == "const uint8_t *":
        return ctypes.c_char_p
    pointer = re.fullmatch(r"(const )?(\w+) \*", kind)
    name = pointer[2] if pointer else kind
    to = interface.Handle if name in HANDLES else PYTHON.get(name) or getattr(interface, capital(name), None)
    if to is None:
        return kind
    return ctypes.POINTER(to) if pointer else to


def compare_python(header):
    numbers, interface = vars(loaded("_numbers")), loaded("_interface")
    yield from differences("_numbers.py", {name: it for name, it in numbers.items() if not name.startswith("__")}, header.numbers)
    structs = {name: it._fields_ for name, it in vars(interface).items() if isinstance(it, type(ctypes.Structure)) and hasattr(it, "_fields_")}
    wanted = {capital(name): [(it, in_python(kind, interface)) for it, kind in fields] for name, fields in header.structs.items()}
    wanted["Handle"] = [("memory", ctypes.c_void_p), ("is_open", ctypes.c_size_t)]
    yield from differences("_interface.py", structs, wanted)
    results = {name: "size_t" if name in interface.SIZES else "void" if name.endswith("_close") else "uint32_t" for name in interface.PROTOTYPES}
    calls = {name: (results[name], list(arguments)) for name, arguments in interface.PROTOTYPES.items()}
    wanted = {name: (result, [in_python(kind, interface) for _, kind in arguments]) for name, (result, arguments) in header.calls.items()}
    yield from differences("_interface.py", calls, wanted)


def compare_cpp(header, path):
    """Each number of an enum has a name in larboardyuzu.hpp, by its macro, and each call is used there."""
    text = read(path)
    names = set(re.findall(r"\b\w+ = LARBOARDYUZU_(\w+)", text)) - {"CLOSED"}
    wanted = {name for enum in header.enums.values() for name in enum}
    yield from (f"larboardyuzu.hpp: {name}: in one of the two alone" for name in sorted(names ^ wanted))
    unused = {it for it in header.calls if not re.search(rf"\blarboardyuzu_{it}\b", text) and not it.endswith("_size") and it != "version"}
    yield from (f"larboardyuzu.hpp: no call of {name}" for name in sorted(unused))


# The files that tell the version: its three numbers, or the first two.
VERSIONS = [
    ("rust/Cargo.toml", r'(?m)^version = "(.*)"'),
    ("rust/Cargo.lock", r'(?m)^version = "(.*)"'),
    ("rust/build.rs", r"larboardyuzu >= ([\d.]+)"),
    ("rust/README.md", r"liblarboardyuzu\.so\.([\d.]+\d)"),
    ("python/pyproject.toml", r'(?m)^version = "(.*)"'),
    ("python/larboardyuzu/__init__.py", r'__version__ = "(.*)"'),
    ("python/README.md", r"liblarboardyuzu\.so\.([\d.]+\d)"),
]


def compare_versions(header):
    version = [str(it) for it in header.numbers["VERSION"].to_bytes(3, "big")]
    for name, where in VERSIONS:
        found = re.search(where, read(f"{HERE}/{name}"))
        if not found or found[1] not in (".".join(version), ".".join(version[:2])):
            yield f"{name} tells {found[1] if found else 'no version'}, wanted {'.'.join(version)}"


def main(path):
    header = Header(read(path))
    hpp = f"{os.path.dirname(os.path.abspath(path))}/larboardyuzu.hpp"
    told = [*compare_rust(header), *compare_python(header), *compare_cpp(header, hpp), *compare_versions(header)]
    for line in told:
        print(f"bindings: {line}")
    if not header.numbers or not header.structs or not header.calls:
        print("bindings: found no numbers, structs or calls")
        return 1
    sizes = f"{len(header.calls)} calls, {len(header.structs)} structs and {len(header.numbers)} numbers"
    print(f"bindings: {sizes} compared, {len(told)} differences")
    return 1 if told else 0


if __name__ == "__main__":
    if len(sys.argv) != 2:
        print(__doc__, file=sys.stderr)
        sys.exit(2)
    sys.exit(main(sys.argv[1]))
