#!/usr/bin/env python3
"""debug_info.py HEADER: prints the assembler text of debug information (DWARF 4) for the calls, structs and enums of the C header, which the
library has as c/debug_info.s: the proved code has none, and a debugger, abidw or abidiff would see names without types. It says where each call
begins, and nothing of the code."""
import sys

sys.dont_write_bytecode = True
import interface  # noqa: E402

# Tags, attributes and forms of DWARF 4.
ARRAY, ENUMERATION, PARAMETER, MEMBER, POINTER, UNIT, STRUCT, TYPEDEF, SUBRANGE, BASE, CONST, ENUMERATOR, CALL = (
    0x01, 0x04, 0x05, 0x0D, 0x0F, 0x11, 0x13, 0x16, 0x21, 0x24, 0x26, 0x28, 0x2E)
NAME, SIZE, LOW, HIGH, LANGUAGE, VALUE, BOUND, PRODUCER, PROTOTYPED, PLACE, ENCODING, EXTERNAL, TYPE = (
    0x03, 0x0B, 0x11, 0x12, 0x13, 0x1C, 0x2F, 0x25, 0x27, 0x38, 0x3E, 0x3F, 0x49)
ADDRESS, DATA8, STRING, DATA1, UDATA, REFERENCE, PRESENT = 0x01, 0x07, 0x08, 0x0B, 0x0F, 0x13, 0x19
# The numbers of C: bytes, and the kind of number.
UNSIGNED, BOOLEAN = 0x07, 0x02
NUMBERS = {"uint8_t": (1, UNSIGNED), "uint32_t": (4, UNSIGNED), "uint64_t": (8, UNSIGNED), "size_t": (8, UNSIGNED), "bool": (1, BOOLEAN)}


class Writer:
    """The text: entries, each by an abbreviation that is made when it is first needed."""

    def __init__(self, header):
        self.header, self.abbreviations, self.lines, self.types = header, {}, [], {}

    def entry(self, tag, has_children, *attributes):
        """Writes an entry; an attribute is (name, form, value)."""
        form = (tag, has_children, tuple((name, form) for name, form, _ in attributes))
        code = self.abbreviations.setdefault(form, len(self.abbreviations) + 1)
        self.lines.append(f"    .uleb128 {code}")
        for _, form, value in attributes:
            if form == STRING:
                self.lines.append(f'    .asciz "{value}"')
            elif form == REFERENCE:
                self.lines.append(f"    .4byte {value} - .Linfo")
            elif form != PRESENT:
                self.lines.append(f"    {({ADDRESS: '.8byte', DATA8: '.8byte', DATA1: '.byte', UDATA: '.uleb128'})[form]} {value}")

    def end(self):
        self.lines.append("    .uleb128 0")

    def type_of(self, kind):
        """The label of a type, which is written behind the others if it isn't there yet."""
        if kind not in self.types:
            self.types[kind] = f".Ltype{len(self.types)}"
        return self.types[kind]

    def write_type(self, kind):
        self.lines.append(f"{self.types[kind]}:")
        if kind.endswith(" *"):
            to = kind.removesuffix(" *")
            self.entry(POINTER, False, (SIZE, DATA1, 8), *([] if to == "void" else [(TYPE, REFERENCE, self.type_of(to))]))
        elif kind.startswith("const "):
            self.entry(CONST, False, (TYPE, REFERENCE, self.type_of(kind.removeprefix("const "))))
        elif kind.endswith("]"):
            element, _, count = kind[:-1].partition("[")
            self.entry(ARRAY, True, (TYPE, REFERENCE, self.type_of(element)))
            self.entry(SUBRANGE, False, (TYPE, REFERENCE, self.type_of("size_t")), (BOUND, DATA1, int(count) - 1))
            self.end()
        elif kind in NUMBERS:
            size, encoding = NUMBERS[kind]
            self.entry(BASE, False, (SIZE, DATA1, size), (ENCODING, DATA1, encoding), (NAME, STRING, kind))
        elif kind.startswith("struct "):
            self.write_struct(kind.removeprefix("struct "))
        else:
            self.entry(TYPEDEF, False, (NAME, STRING, kind), (TYPE, REFERENCE, self.type_of(f"struct {kind}")))

    def write_struct(self, name):
        fields = self.header.structs[name]
        places, size, _ = interface.layout(fields, self.header)
        self.entry(STRUCT, True, (NAME, STRING, name), (SIZE, DATA1, size))
        for field, kind in fields:
            self.entry(MEMBER, False, (NAME, STRING, field), (TYPE, REFERENCE, self.type_of(kind)), (PLACE, DATA1, places[field]))
        self.end()

    def write_enum(self, name, values):
        self.entry(ENUMERATION, True, (NAME, STRING, f"larboardyuzu_{name}"), (SIZE, DATA1, 4), (TYPE, REFERENCE, self.type_of("uint32_t")))
        for value, number in values.items():
            self.entry(ENUMERATOR, False, (NAME, STRING, f"LARBOARDYUZU_{value}"), (VALUE, UDATA, number))
        self.end()

    def write_call(self, name, result, arguments):
        returns = [] if result == "void" else [(TYPE, REFERENCE, self.type_of(result))]
        self.entry(CALL, bool(arguments), (EXTERNAL, PRESENT, 1), (NAME, STRING, name), (PROTOTYPED, PRESENT, 1), (LOW, ADDRESS, name), (HIGH, DATA8, 1),
                   *returns)
        for argument, kind in arguments:
            self.entry(PARAMETER, False, (NAME, STRING, argument), (TYPE, REFERENCE, self.type_of(kind)))
        if arguments:
            self.end()

    def write_unit(self):
        self.entry(UNIT, True, (PRODUCER, STRING, "c/debug_info.py"), (LANGUAGE, DATA1, 12), (NAME, STRING, "larboardyuzu.h"))
        for name, (result, arguments) in self.header.calls.items():
            self.write_call(name, result, arguments)
        for name, values in self.header.enums.items():
            self.write_enum(name, values)
        done = 0
        while done < len(self.types):
            self.write_type(list(self.types)[done])
            done += 1
        self.end()

    def text(self):
        self.write_unit()
        yield "# Made by debug_info.py of include/larboardyuzu.h: the types of the calls, for debuggers and abidw."
        yield '    .section .debug_info,"",%progbits\n.Linfo:\n    .4byte .Lend - .Lbegin\n.Lbegin:\n    .2byte 4\n    .4byte .Labbreviations\n    .byte 8'
        yield from self.lines
        yield '.Lend:\n    .section .debug_abbrev,"",%progbits\n.Labbreviations:'
        for (tag, has_children, attributes), code in self.abbreviations.items():
            yield f"    .uleb128 {code}, {tag}\n    .byte {int(has_children)}"
            for name, form in (*attributes, (0, 0)):
                yield f"    .uleb128 {name}, {form}"
        yield '    .byte 0\n    .section .note.GNU-stack,"",%progbits'


def main(path):
    with open(path, encoding="utf-8") as it:
        header = interface.Header(it.read())
    print(*Writer(header).text(), sep="\n")
    return 0


if __name__ == "__main__":
    if len(sys.argv) != 2:
        print(__doc__, file=sys.stderr)
        sys.exit(2)
    sys.exit(main(sys.argv[1]))
