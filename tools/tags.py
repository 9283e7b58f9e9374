#!/usr/bin/env python3
"""tags.py COMMAND: lets an editor jump to a name of the sources, in Rattle and in antt. tools/editors.md says how to set the editor up.

  tags.py vim [FILE]     writes the tags file that Vim and VS Code read, by default tags at the top
  tags.py emacs [FILE]   writes the tags file that Emacs reads, by default TAGS at the top
  tags.py check          finds the names in a small sample, looks up each tag in the way of an editor, and looks for a tag for each name that
                         a page links to a source; ends with 1 if anything is wrong

There is a tag for each module, type, variant, trait, function, constant, ghost member and named clause of src/, and for each definition,
constructor, field, lemma and set of lemmas of specs/ and proofs/. Proofs of single goals have none."""
import glob
import os
import re
import sys
from collections import Counter, namedtuple

TOP = os.path.dirname(os.path.dirname(os.path.abspath(__file__)))
Tag = namedtuple("Tag", "name path line text kind scope")

ITEM = re.compile(r'( {0,4})(?:pub(?:\([^)]*\))? )?(?:(?:const|unsafe|extern "C") )*(fn|struct|enum|trait|type|const|static|mod) (\w+)')
GHOST = re.compile(r"( {4})ghost (?!use )(\w+)(?=:| =)")
CLAUSE = re.compile(r" +(?:ensures|requires)\*? (\w+) \{")
VARIANT = re.compile(r" {4}([A-Z]\w*)(?=[,({]| [{=])")

LETTERS = r"[^\s(){};,.@\"]+"
DEFINED = re.compile(rf"( *)(?:(?:abbrev|unfoldable)(?: pub)?|pub) (?:(record|data|ruleset|module) )?({LETTERS})(?= |$)")
BARE = re.compile(rf"( *)(?:(record|data|module) ({LETTERS})|({LETTERS}) :(?= ))")

SAMPLE = {
    "a.rt": """
// fn not_this
pub mod laws;
pub const LIMIT: usize = 16;
pub enum Order {
    /// A comment.
    Big,
    Other(u8),
}
impl<T: Into<u8>> Model for ShortList<T, N> {
    ghost use Rattle.std.specs.Prelude.{List};
    ghost Value = { List T };
    pub fn push(&mut self, item: T)
        requires room { length self.old < N }
        ensures { self.new ≡ self.old }
    {
        let fn_like = 1;
    }
}
pub unsafe extern "C" fn lz_open() {}
""",
    "b.antt": """
-- pub not_this : ℕ
use Rattle.std.specs.Prelude.{ℕ}
pub use Rattle.other.specs.Prelude.{ℕ}
abbrev pub words_asked : ℕ → ℕ
words_asked first = first
unfoldable pub down7 : ℕ → ℕ
pub record Adds {A : Type 0}
    (old : List ℕ) : Type 0 where
  pub given : ℕ
pub data Field : Type 0 where
  byte : Field
length-first_words : (n : ℕ) → n ≡ n
pub returns : goal.returns
pub ruleset increases = (one, two)
module inner (A : Type 0) where
  abbrev pub kept : ℕ
""",
}
EXPECTED = """laws mod, LIMIT const, Order enum, Big variant Order, Other variant Order, Value ghost ShortList, push fn ShortList, room clause push,
lz_open fn, words_asked definition, down7 definition, Adds record, given field Adds, Field data, byte constructor Field,
length-first_words definition, increases ruleset, inner module, kept definition inner"""


def head_of(lines, at):
    """The type for which an impl stands that begins at this line, or the trait's or enum's name."""
    head = ""
    for line in lines[at:]:
        head += line + " "
        if line.endswith("{") or line.endswith("}"):
            break
    head = head.replace("->", "")
    while (shorter := re.sub(r"<[^<>]*>", "", head)) != head:
        head = shorter
    return (re.search(r"\bfor (?:\w+::)*(\w+)", head) or re.search(r"(?:impl|trait|enum) +(?:\w+::)*(\w+)", head) or ["", ""])[1]


def rattle_tags(path, text):
    """The tags of a source in Rattle, whose lines are as rt fmt lays them out."""
    lines, scope, kind, function = text.split("\n"), "", "", ""
    for at, line in enumerate(lines):
        if re.match(r"(?:pub(?:\([^)]*\))? )?(?:unsafe )?(?:impl|trait|enum)\b", line):
            scope, kind = head_of(lines, at), re.search(r"impl|trait|enum", line)[0]
        if line == "}":
            scope = kind = ""
        if it := ITEM.match(line):
            within = scope if it[1] else ""
            if it[2] == "fn":
                function = it[3]
            if it[3] != "_" and (within or not it[1]):
                yield Tag(it[3], path, at + 1, line, it[2], within)
        elif it := GHOST.match(line):
            yield Tag(it[2], path, at + 1, line, "ghost", scope)
        elif it := CLAUSE.match(line):
            yield Tag(it[1], path, at + 1, line, "clause", function)
        elif kind == "enum" and (it := VARIANT.match(line)):
            yield Tag(it[1], path, at + 1, line, "variant", scope)


def antt_tags(path, text):
    """The tags of a file of specs/ or proofs/."""
    blocks = []
    for at, line in enumerate(text.split("\n")):
        bare, indent = line.strip(), len(line) - len(line.lstrip())
        if not bare or bare.startswith("--") or re.match(r"(?:pub )?(?:use|mod) ", bare):
            continue
        while blocks and blocks[-1][0] >= indent:
            blocks.pop()
        outer_kind, outer = blocks[-1][1:] if blocks else ("", "")
        it = DEFINED.match(line)
        kind, name = (it[2], it[3]) if it else ("", "")
        if not it and (it := BARE.match(line)) and (it[2] or not indent or outer_kind == "data"):
            kind, name = it[2], it[3] or it[4]
        if not name or " : goal." in line or name in (":", "="):
            continue
        if not kind:
            kind = {"record": "field", "data": "constructor"}.get(outer_kind, "definition")
        yield Tag(name, path, at + 1, line, kind, outer)
        if kind in ("record", "data", "module"):
            blocks.append((indent, kind, name))


def tags_of(path, text):
    return [*(rattle_tags if path.endswith(".rt") else antt_tags)(path, text)]


def read(path):
    with open(f"{TOP}/{path}", encoding="utf-8") as file:
        return file.read()


def sources():
    """The sources by their paths, each with its text; what the kit writes into out/ is none."""
    found = {}
    for pattern in ("src/**/*.rt", "specs/**/*.antt", "proofs/**/*.antt"):
        for path in glob.glob(f"{TOP}/crates/*/{pattern}", recursive=True):
            name = os.path.relpath(path, TOP)
            found[name] = read(name)
    return dict(sorted(found.items()))


def vim_file(files):
    """A tags file: a tag is found by its whole line, or by the number of the line if the file has that line twice."""
    rows = []
    for path, text in files.items():
        counts = Counter(text.split("\n"))
        for tag in tags_of(path, text):
            escaped = tag.text.replace("\\", "\\\\").replace("/", "\\/")
            address = f"/^{escaped}$/" if counts[tag.text] == 1 else str(tag.line)
            scope = f"\tscope:{tag.scope}" if tag.scope else ""
            rows.append(f'{tag.name}\t{path}\t{address};"\tkind:{tag.kind}\tline:{tag.line}{scope}')
    head = ["!_TAG_FILE_ENCODING\tutf-8\t//", "!_TAG_FILE_FORMAT\t2\t/extended format/",
            "!_TAG_FILE_SORTED\t1\t/0=unsorted, 1=sorted, 2=foldcase/"]
    return "\n".join([*head, *sorted(rows, key=str.encode), ""])


def emacs_file(files):
    """A TAGS file: for each source its tags, with the line and the offset in bytes where each line begins."""
    parts = []
    for path, text in files.items():
        starts = [0]
        for line in text.split("\n"):
            starts.append(starts[-1] + len(line.encode()) + 1)
        rows = "".join(f"{tag.text}\x7f{tag.name}\x01{tag.line},{starts[tag.line - 1]}\n" for tag in tags_of(path, text))
        parts.append(f"\x0c\n{path},{len(rows.encode())}\n{rows}")
    return "".join(parts)


def sample_faults():
    found = [" ".join([it.name, it.kind, it.scope]).strip() for path, text in SAMPLE.items() for it in tags_of(path, text)]
    wanted = [it.strip() for it in EXPECTED.replace("\n", " ").split(",")]
    yield from (f"the sample: {it} isn't found" for it in wanted if it not in found)
    yield from (f"the sample: {it} is found, and is none" for it in found if it not in wanted)


def address_faults(files):
    """The tags that lead an editor elsewhere than to their own line."""
    for row in vim_file(files).split("\n")[3:-1]:
        name, path, rest = row.split("\t", 2)
        address, _, fields = rest.rpartition(';"\t')
        line = int(re.search(r"\bline:(\d+)", fields)[1])
        lines = files[path].split("\n")
        if address.isdigit():
            places = [int(address)]
        else:
            pattern = re.sub(r"\\(.)", r"\1", address[2:-2])
            places = [at for at, it in enumerate(lines, 1) if it == pattern]
        if places != [line] or name not in lines[line - 1]:
            yield f"{path}:{line}: the tag of {name} leads to {places}"


def link_faults(files):
    """The names that a page links to a source that neither defines them nor brings them in."""
    names = {path: {it.name for it in tags_of(path, text)} for path, text in files.items()}
    every = set().union(*names.values())
    pages = ["README.md", "CONTRIBUTING.md", *(os.path.relpath(it, TOP) for it in sorted(glob.glob(f"{TOP}/docs/*.md")))]
    for page in pages:
        for shown, target in re.findall(r"\[`([^`\]]+)`\]\(((?:\.\./)?crates/[^)#]+\.(?:rt|antt))\)", read(page)):
            path, name = target.removeprefix("../"), re.split(r"[.]|::", shown)[-1]
            if path not in files:
                yield f"{page}: {path} is no source"
            elif re.fullmatch(r"\w+", name) and name not in names[path]:
                if name not in every or not re.search(rf"(?m)^(?:pub )?use .*\b{name}\b", files[path]):
                    yield f"{page}: no tag of {path} is {shown}"


def check():
    files = sources()
    found = [*sample_faults(), *address_faults(files), *link_faults(files)]
    count = sum(len(tags_of(path, text)) for path, text in files.items())
    print(*found, f"tags.py: {count} tags in {len(files)} files, {len(found)} to mend", sep="\n")
    return 1 if found or not count else 0


def main(words):
    if words == ["check"]:
        return check()
    if words[:1] in (["vim"], ["emacs"]) and len(words) <= 2:
        path = words[1] if len(words) == 2 else f"{TOP}/{'tags' if words[0] == 'vim' else 'TAGS'}"
        text = (vim_file if words[0] == "vim" else emacs_file)(sources())
        with open(path, "w", encoding="utf-8", newline="\n") as file:
            file.write(text)
        return 0
    print(__doc__, file=sys.stderr)
    return 2


if __name__ == "__main__":
    sys.exit(main(sys.argv[1:]))
