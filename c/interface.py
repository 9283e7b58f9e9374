#!/usr/bin/env python3
"""interface.py HEADER CRATES: compares the C header with the exports of the crate larboardyuzu_c, whose sources lie in the folder CRATES.

Each export has a prototype of the same name, with the same arguments in the same order: a number as its type of <stdint.h>, a slice as a
pointer and a size_t, a reference to a #[repr(C)] struct as a pointer to a struct whose fields have the same names and types. A handle is const
in C if the export's clause `same` says that it holds the same afterwards. Each number of the header (enums, flags, limits, the version) is the
one that the sources have, and each word that a call returns is the header's. With a C compiler (CC) each struct has the size and the places
that #[repr(C)] gives it. It prints each difference; the exit code is 1 if there is one."""
import os
import re
import shutil
import subprocess
import sys
import tempfile

NUMBERS = {"u8": "uint8_t", "u16": "uint16_t", "u32": "uint32_t", "u64": "uint64_t", "usize": "size_t", "bool": "bool"}
SIZES = {"uint8_t": 1, "uint16_t": 2, "uint32_t": 4, "uint64_t": 8, "size_t": 8, "bool": 1, "void *": 8}

# The limits of the header, and the lines of the sources that have them, as (end of a file's name, pattern); all that are found must agree.
LIMITS = {
    "LEAST_ROOM": ("larboardyuzu_c/src/(?!sysex8)[a-z]+.rt", r"\broom < (\w+)"),
    "MOST_ROOM": ("larboardyuzu_c/src/[a-z0-9]+.rt", r"\broom > (\w+)"),
    "MOST_NOTES": ("larboardyuzu_c/src/state.rt", r"\bnotes > (\w+)"),
    "MOST_PARAMS": ("larboardyuzu_c/src/state.rt", r"\bparams > (\w+)"),
    "MOST_REPLY_WORDS": (r"\w+.rt", r"const MOST_REPLY_WORDS: usize = (\w+);"),
    "MOST_SETUP_BYTES": ("function_blocks/src/reading.rt", r"const MOST_BYTES: usize = (\w+);"),
    "MOST_LINE": ("c_pure/src/text.rt", r"const MOST_BYTES: usize = (\w+);"),
    "NO_CHANNEL": (r"c_voice_state/src/\w+.rt", r"const NO_CHANNEL: u8 = (\w+);"),
    "VERSION": ("larboardyuzu_c/src/pure.rt", r"fn larboardyuzu_version\(\)[^{]*\{[^}]*\}\s*\{\s*(\w+)\s*\}"),
    **{flag: (r"(?:c_\w+|larboardyuzu_c)/src/\w+.rt", rf"const {flag}: u32 = (\w+);") for flag in ("COMPACT", "PAIRED", "OF_BYTES", "LITTLE_ENDIAN")},
}
# The enums of the header by the tables of their words in the sources, with the prefix that these leave out.
WORDS = {"STATUSES": ("status", ""), "KINDS": ("kind", ""), "HEARD": ("heard", "HEARD_")}


def read(path):
    with open(path, encoding="utf-8") as it:
        return it.read()


def sources(crates):
    """The text of each source file."""
    for folder, _, names in sorted(os.walk(crates)):
        if f"{os.sep}src" in folder and f"{os.sep}out" not in folder:
            for name in sorted(names):
                if name.endswith(".rt"):
                    yield os.path.join(folder, name), re.sub(r"//[^\n]*", "", read(os.path.join(folder, name)))


def split(text):
    """The parts between the commas that stand in no bracket."""
    parts, depth, part = [], 0, ""
    for letter in text:
        depth += (letter in "([{<") - (letter in ")]}>")
        if letter == "," and depth == 0:
            parts.append(part)
            part = ""
        else:
            part += letter
    return [it.strip() for it in parts + [part] if it.strip()]


def exports(text):
    """The exports in a source: name, arguments as (name, type), and result. A handle that holds the same afterwards is one of `&Handle`."""
    form = r"#\[unsafe\(no_mangle\)\]\s*(?:#\[[^\n]*\]\s*)*pub extern \"C\" fn (\w+)\(([^)]*)\)\s*(?:->\s*(\w+))?(.*?)\n\{"
    for name, arguments, result, clauses in re.findall(form, text, re.S):
        pairs = [tuple(part.strip() for part in it.split(":", 1)) for it in split(arguments)]
        same = set(re.findall(r"ensures same \{ (\w+)\.new\.holds ≡ \1\.old\.holds \}", clauses))
        yield name, [(name, "&Handle" if name in same else kind) for name, kind in pairs if kind != "Global"], result


def rattle_structs(text):
    """The #[repr(C)] structs in a source: name, and fields as (name, type); ghost fields aren't there in C."""
    form = r"#\[repr\(C\)\]\s*(?:#\[[^\n]*\]\s*)*pub struct (\w+) \{(.*?)\n\}"
    for name, body in re.findall(form, text, re.S):
        fields = [re.sub(r"^pub(\([^)]*\))? ", "", it) for it in split(body) if " ghost " not in f" {it}"]
        yield name, [tuple(part.strip() for part in it.split(":", 1)) for it in fields]


def in_capitals(name):
    return re.sub(r"(?<=[a-z0-9])(?=[A-Z])", "_", name).upper()


def arms(text, what, answer=r"(\d+),"):
    """The numbers of an enum's variants, as a match gives them, by their C names."""
    found = re.findall(rf"\b{what}::(\w+)(?:\([^)]*\)| \{{[^}}]*\}})?\)? => {answer}", text)
    return {in_capitals(name): int(number) for name, number in found}


def body_of(text, function):
    """The text of a function."""
    found = re.search(rf"^( *)(?:pub )?fn {function}\b.*?\n\1\}}\n", text, re.S | re.M)
    return found[0] if found else ""


def fact_numbers(text):
    """The kinds of facts: the first argument of the call that makes each, also one in a block; the program's stands in its own function."""
    found = arms(body_of(text, "of"), "Fact", r"(?:\{(?:[^}]*?;)?\s*)?at\.\w+\((\d+)")
    programmed = re.search(r"kind: (\d+)", body_of(text, "programmed"))
    return {**found, **({"PROGRAM": int(programmed[1])} if programmed else {})}


def numbers_of(texts):
    """The numbers of the header's enums, as the sources have them."""
    found = {"NO_LINE": 0}
    for path, text in texts:
        if "/c_" in path or "/larboardyuzu_c/" in path:
            found.update(arms(text, "Status"))
            found.update(arms(text, "Kind"))
        if path.endswith("c_endpoint/src/heard.rt"):
            heard = {**arms(text, "CiFault"), **arms(text, "Heard"), **arms(text, "Outcome"), "NOTHING": int(re.search(r"None => (\d+)", text)[1])}
            found.update({f"HEARD_{name}": number for name, number in heard.items()})
        if path.endswith("c_streams/src/sysex8.rt"):
            joined = {**arms(body_of(text, "reply_number"), "Fed8"), "OTHER": int(re.search(r"\banswer: (\d+)", text)[1])}
            found.update({f"JOINED_{name}": number for name, number in joined.items()})
        if path.endswith("c_voice_state/src/fact_numbers.rt"):
            found.update({f"FACT_{name}": number for name, number in fact_numbers(text).items()})
    return found


def limits_of(texts, told):
    """The limits and flags of the header, as the sources have them."""
    found = {}
    for name, (file, pattern) in LIMITS.items():
        values = {int(it.replace("_", ""), 0) for path, text in texts if re.search(f"/{file}$", path) for it in re.findall(pattern, text)}
        if len(values) != 1:
            told.append(f"LARBOARDYUZU_{name}: the sources have {sorted(values)}")
        found[name] = min(values, default=None)
    return found


def words_of(texts):
    """The words that the calls return, by the tables that have them."""
    for path, text in texts:
        if "/c_pure/src/" in path:
            for table, words in re.findall(r"const (\w+): \[&str; \d+\] = \[(.*?)\];", text, re.S):
                yield table, re.findall(r'"(\w+)"', words)


class Header:
    def __init__(self, text):
        text = re.sub(r"/\*.*?\*/", "", text, flags=re.S)
        self.structs = {
            name: [self.field(it) for it in body.split(";") if it.strip()]
            for body, name in re.findall(r"typedef struct \w+ \{(.*?)\} (\w+);", text, re.S)
        }
        self.calls = {
            name: (result, [self.field(it) for it in split(arguments) if it != "void"])
            for result, name, arguments in re.findall(r"^(\w+) (larboardyuzu_\w+)\(([^)]*)\);", text, re.M)
        }
        self.enums = {
            enum: {name: int(value) for name, value in re.findall(r"LARBOARDYUZU_(\w+)\s*=\s*(\d+)", body)}
            for enum, body in re.findall(r"enum larboardyuzu_(\w+) \{(.*?)\};", text, re.S)
        }
        self.values = {name: value for enum in self.enums.values() for name, value in enum.items()}
        self.values.update({name: int(value, 0) for name, value in re.findall(r"#define LARBOARDYUZU_(\w+) (\w+?)u\n", text)})

    @staticmethod
    def field(text):
        """A field or an argument: its name, and its type."""
        kind, name, places = re.fullmatch(r"\s*(.*?[\s*])(\w+)(\[\d+\])?\s*", text, re.S).groups()
        return name, " ".join(kind.replace("*", " * ").split()) + (places or "")


def in_c(name, kind, structs, header, told):
    """The C arguments of one of Rattle's, as (name, type); (None, type) if any name will do. A struct is a pair of names."""
    if kind in NUMBERS:
        return [(name, NUMBERS[kind])]
    slice_of = re.fullmatch(r"&(mut )?\[(\w+)\]", kind)
    if slice_of:
        const = "" if slice_of[1] else "const "
        element = NUMBERS.get(slice_of[2], ("struct", slice_of[2]))
        return [(name, (const, element)), (None, "size_t")]
    to = re.fullmatch(r"&(mut )?(\w+)", kind)
    if to:
        return [(name, ("" if to[1] else "const ", NUMBERS.get(to[2], ("struct", to[2]))))]
    told.append(f"{name}: no C type for {kind}")
    return []


def compare_struct(rattle_name, c_name, structs, header, told):
    """Compares the fields of a struct; those of a handle are private, and have other names."""
    fields, c_fields = structs.get(rattle_name), header.structs.get(c_name)
    if fields is None or c_fields is None:
        told.append(f"{rattle_name} and {c_name}: one of them isn't there")
        return
    if len(fields) != len(c_fields):
        told.append(f"{c_name} has {len(c_fields)} fields, and {rattle_name} {len(fields)}")
        return
    is_handle = any(kind.startswith("*mut") for _, kind in fields)
    for (name, kind), (c_name_of, c_kind) in zip(fields, c_fields):
        array = re.fullmatch(r"\[(\w+); (\d+)\]", kind)
        if kind.startswith("*mut"):
            wanted = "void *"
        elif array:
            wanted = f"{NUMBERS[array[1]]}[{array[2]}]"
        elif kind in NUMBERS:
            wanted = NUMBERS[kind]
        else:
            compare_struct(kind, c_kind, structs, header, told)
            wanted = c_kind
        if c_kind != wanted or (name != c_name_of and not is_handle):
            told.append(f"{c_name}: {c_kind} {c_name_of}, wanted {wanted} {name}")


def compare_call(name, arguments, result, structs, header, told):
    if name not in header.calls:
        told.append(f"{name}: not in the header")
        return
    c_result, c_arguments = header.calls[name]
    if c_result != (NUMBERS[result] if result else "void"):
        told.append(f"{name}: its result is {c_result}")
    wanted = [it for argument in arguments for it in in_c(*argument, structs, header, told)]
    if len(wanted) != len(c_arguments):
        told.append(f"{name}: {len(c_arguments)} arguments, wanted {len(wanted)}")
        return
    for (rattle_name, kind), (c_name, c_kind) in zip(wanted, c_arguments):
        if isinstance(kind, tuple):
            const, element = kind
            if isinstance(element, tuple):
                struct = c_kind.replace("const ", "").replace(" *", "")
                compare_struct(element[1], struct, structs, header, told)
                element = struct
            kind = f"{const}{element} *"
        if kind != c_kind or rattle_name not in (None, c_name):
            told.append(f"{name}: {c_kind} {c_name}, wanted {kind} {rattle_name}")


def compare_values(texts, header, told):
    """Compares all numbers of the header, and the words that calls return."""
    wanted = {**numbers_of(texts), **limits_of(texts, told)}
    longest = 0
    for table, words in words_of(texts):
        enum, prefix = WORDS.pop(table)
        longest = max(longest, *map(len, words))
        in_header = [name.removeprefix(prefix) for name, _ in sorted(header.enums[enum].items(), key=lambda it: it[1])]
        if words != in_header:
            told.append(f"{table}: {words}, wanted {in_header}")
    for table in WORDS:
        told.append(f"{table}: no such table of words")
    wanted["MOST_NAME"] = header.values["MOST_NAME"] if longest <= header.values["MOST_NAME"] else longest
    for name in sorted({*wanted, *header.values}):
        if header.values.get(name) != wanted.get(name):
            told.append(f"LARBOARDYUZU_{name}: {header.values.get(name)}, wanted {wanted.get(name)}")
    return len(wanted)


def layout(fields, header):
    """The places of the fields, the size and the alignment of a struct, by the rules of #[repr(C)]."""
    places, end, widest = {}, 0, 1
    for name, kind in fields:
        kind, count = re.fullmatch(r"(.*?)(?:\[(\d+)\])?", kind).groups()
        size, align = (SIZES[kind], SIZES[kind]) if kind in SIZES else layout(header.structs[kind], header)[1:]
        end += -end % align
        places[name] = end
        end += size * int(count or 1)
        widest = max(widest, align)
    return places, end + -end % widest, widest


def compare_layouts(path, header, told):
    """Asks the C compiler for the same: how many it compared."""
    lines = []
    for struct, fields in header.structs.items():
        places, size, align = layout(fields, header)
        lines.append(f"_Static_assert(sizeof({struct}) == {size} && _Alignof({struct}) == {align}, \"{struct}\");")
        lines += [f"_Static_assert(offsetof({struct}, {name}) == {at}, \"{struct}.{name}\");" for name, at in places.items()]
    compiler = os.environ.get("CC", "cc").split()
    if not shutil.which(compiler[0]):
        print(f"interface: no layout compared, there is no {compiler[0]}")
        return
    with tempfile.TemporaryDirectory() as room:
        with open(f"{room}/layout.c", "w", encoding="utf-8") as it:
            it.write(f'#include "{os.path.abspath(path)}"\n' + "\n".join(lines) + "\n")
        done = subprocess.run([*compiler, "-std=c11", "-fsyntax-only", f"{room}/layout.c"], capture_output=True, text=True, check=False)
    if done.returncode:
        told.extend(re.findall(r"error: (.*)", done.stderr))


def main(header_path, crates):
    header = Header(read(header_path))
    texts = list(sources(crates))
    structs = {name: fields for _, text in texts for name, fields in rattle_structs(text)}
    calls = [it for path, text in texts if "/larboardyuzu_c/" in path for it in exports(text)]
    told = []
    for name, arguments, result in calls:
        compare_call(name, arguments, result, structs, header, told)
    for name in sorted(set(header.calls) - {name for name, _, _ in calls}):
        told.append(f"{name}: no export")
    values = compare_values(texts, header, told)
    compare_layouts(header_path, header, told)
    for line in dict.fromkeys(told):
        print(f"interface: {line}")
    if not calls or not values:
        print("interface: found no exports or no numbers")
        return 1
    print(f"interface: {len(calls)} calls, {values} numbers and {len(header.structs)} structs compared, {len(dict.fromkeys(told))} differences")
    return 1 if told else 0


if __name__ == "__main__":
    if len(sys.argv) != 3:
        print(__doc__, file=sys.stderr)
        sys.exit(2)
    sys.exit(main(*sys.argv[1:]))
