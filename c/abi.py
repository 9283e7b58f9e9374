#!/usr/bin/env python3
"""abi.py check HEADER RECORD: compares the binary interface of the C header with the one that the file RECORD has of the last version: each call
with its arguments, each number, and the size of each struct with the place and size of each field, as the C compiler (CC) lays it out. It
fails if one of them changed or is gone, and the header has the record's major and minor number still; more of them may come.
abi.py print HEADER: prints the record of this header, for a version with another number."""
import os
import subprocess
import sys
import tempfile

sys.dont_write_bytecode = True
import interface  # noqa: E402


def compiler():
    return os.environ.get("CC", "cc").split()


def sizes_of(header, path):
    """The lines of the structs, as a program of the C compiler prints them."""
    lines = []
    for struct, fields in header.structs.items():
        lines.append(f'    printf("struct {struct} %zu\\n", sizeof({struct}));')
        lines += [f'    printf("field {struct}.{name} %zu %zu\\n", offsetof({struct}, {name}), sizeof((({struct} *)0)->{name}));' for name, _ in fields]
    with tempfile.TemporaryDirectory() as room:
        with open(f"{room}/sizes.c", "w", encoding="utf-8") as it:
            it.write(f'#include "{os.path.abspath(path)}"\n#include <stdio.h>\nint main(void)\n{{\n' + "\n".join(lines) + "\n    return 0;\n}\n")
        subprocess.run([*compiler(), "-std=c11", f"{room}/sizes.c", "-o", f"{room}/sizes"], check=True)
        return subprocess.run([f"{room}/sizes"], capture_output=True, text=True, check=True).stdout.splitlines()


def version_of(header):
    number = header.values["VERSION"]
    return f"version {number >> 16}.{number >> 8 & 255}"


def record_of(header, path):
    """The record: the version, and a line for each part of the interface."""
    calls = [f"call {result} {name}({', '.join(f'{kind} {name}' for name, kind in arguments)})" for name, (result, arguments) in header.calls.items()]
    numbers = [f"number LARBOARDYUZU_{name} {value}" for name, value in header.values.items() if name != "VERSION"]
    return [version_of(header), *sorted(calls), *sorted(numbers), *sizes_of(header, path)]


def check(header, path, record):
    found = record_of(header, path)
    told = [it for it in record[1:] if it not in set(found)]
    print(*(f"abi: changed or gone: {it}" for it in told), f"abi: {len(record) - 1} parts of {record[0]} compared, {len(told)} differences", sep="\n")
    return 1 if told and record[0] == found[0] else 0


def main(action, path, *more):
    with open(path, encoding="utf-8") as it:
        header = interface.Header(it.read())
    if action == "print":
        print(*record_of(header, path), sep="\n")
        return 0
    with open(more[0], encoding="utf-8") as it:
        return check(header, path, it.read().splitlines())


if __name__ == "__main__":
    if (sys.argv[1:2], len(sys.argv)) not in ((["check"], 4), (["print"], 3)):
        print(__doc__, file=sys.stderr)
        sys.exit(2)
    sys.exit(main(*sys.argv[1:]))
