#!/usr/bin/env python3
"""check_release.py ARCHIVE: unpacks a release in an empty folder and tries it there, without the kit, the sources and, where the program
alone is tried, without a PATH.

It runs the script and the program, a conversation, and the blocks of README.md and docs/examples.md, installs what it has, looks the man
page up, and compiles examples in C against the libraries that were packed. What needs a tool or a library that isn't here is left out, with
a line. The exit code is 1 if anything fails."""
import os
import re
import shutil
import subprocess
import sys
import tarfile
import tempfile

import check
import crate_graph

TOP = check.TOP
# A PATH without the kit, and none.
KITLESS = [it for it in os.environ.get("PATH", "").split(":") if not os.path.exists(f"{it}/rt")]
WITHOUT_KIT = {"PATH": ":".join([*KITLESS, "/usr/bin", "/bin"]), "LC_ALL": "C.UTF-8"}
NO_PATH = {"PATH": ""}
STRICT = ["-std=c11", "-O2", "-Wall", "-Wextra", "-Wpedantic", "-Werror"]
MIXED = bytes.fromhex("40903C00C9240000")
FILES = ["larboardyuzu", "libexec/larboardyuzu", "README.md", "CONTRIBUTING.md", "CHANGELOG.md", "VERSION", "include/larboardyuzu.h",
         "include/larboardyuzu.hpp", "man/man1/larboardyuzu.1", "completions/larboardyuzu.bash", "completions/_larboardyuzu",
         "completions/larboardyuzu.fish", "docs/setup.md", "examples/endpoint.toml", "examples/helpers.sh", "tools/install.sh", "NOTICES.txt",
         "RELEASE.txt", "larboardyuzu.spdx.json"]
# The pages of a user: the others tell of the repository.
USERS_PAGES = ["README.md", "docs/examples.md", "docs/recordings.md", "docs/errors.md", "docs/limits.md", "docs/faq.md", "docs/setup.md",
               "docs/c-library.md", "docs/peers.md", "docs/devices.md", "docs/receivers.md", "docs/larboardyuzu.1",
               *(f"docs/help/{it}.txt" for it in ("commands", "options"))]


def ran(words, given=b"", **how):
    """The exit code, output and errors of some words."""
    done = subprocess.run(words, input=given, capture_output=True, check=False, timeout=300, **how)
    return done.returncode, done.stdout, done.stderr


def left_out(what, lacks):
    print(f"release: {what}: left out, since there is no {lacks}", flush=True)


class Unpacked:
    """A release in a folder of its own, which check.py can run pages in."""

    def __init__(self, archive):
        self.room = tempfile.mkdtemp(prefix="larboardyuzu-release-")
        self.log = tempfile.mkdtemp(prefix="larboardyuzu-release-")
        with tarfile.open(archive) as it:
            self.members = it.getmembers()
            it.extractall(self.room, **({"filter": "data"} if hasattr(tarfile, "data_filter") else {}))
        self.at = f"{self.room}/{self.members[0].name.split('/')[0]}"

    def __enter__(self):
        return self

    def __exit__(self, *_):
        shutil.rmtree(self.room, ignore_errors=True)
        shutil.rmtree(self.log, ignore_errors=True)

    run = check.Room.run
    result = check.Room.result
    read = check.Room.read


def check_members(release):
    """One folder with the version in its name, no file of anyone's own in it, and each of FILES."""
    version = check.read("VERSION").strip()
    folder = f"larboardyuzu-{version}"
    for it in release.members:
        if it.name.split("/")[0] != folder or ".." in it.name or not (it.isreg() or it.isdir() or it.issym()):
            yield f"{it.name} doesn't belong in {folder}"
        if (it.uid, it.gid) != (0, 0) or it.mode & 0o022 and not it.issym():
            yield f"{it.name} has the owner {it.uid}:{it.gid} and the mode {it.mode:o}"
        if it.issym() and not os.path.exists(f"{release.room}/{it.name}"):
            yield f"{it.name} leads nowhere"
    yield from (f"there is no {it}" for it in FILES if not os.path.isfile(f"{release.at}/{it}"))
    told = ran([f"{release.at}/larboardyuzu", "--version"], env=WITHOUT_KIT)
    if told != (0, f"larboardyuzu {version}\n".encode(), b""):
        yield f"--version: {told}"


def tried(script, setup, room):
    """The script and what it calls, from another folder, with no PATH."""
    shown = b"0 40903C00 C9240000 note-on group=0 channel=0 note=60 velocity=51492 type=0 attribute=0\n"
    for words, given, wanted in ((["show"], MIXED, shown), (["translate", "up"], bytes.fromhex("903C64"), MIXED)):
        if (got := ran([script, *words], given, cwd=room, env=NO_PATH)) != (0, wanted, b""):
            yield f"{script} {' '.join(words)}: {got}"
    code, output, _ = ran([script, "endpoint", setup], bytes.fromhex("F00001010000001F0000000000000000"), cwd=room, env=NO_PATH)
    if code or len(output) != 96:
        yield f"{script} endpoint: exit code {code}, {len(output)} bytes"


def tried_help(script, room):
    version = f"larboardyuzu {check.read('VERSION')}".encode()
    for words, begins in ((["--help"], b"usage: "), (["help", "clip"], b"clip: "), (["--version"], version)):
        code, output, errors = ran([script, *words], cwd=room, env=NO_PATH)
        if code or errors or not output.startswith(begins):
            yield f"{script} {' '.join(words)}: exit code {code}, {output[:80]}, {errors}"


def check_program(release):
    script, link = f"{release.at}/larboardyuzu", f"{release.room}/link"
    os.symlink(script, link)
    for at in (script, f"{release.at}/libexec/larboardyuzu", link):
        yield from tried(at, f"{release.at}/examples/endpoint.toml", release.room)
    yield from tried_help(script, release.room)
    os.remove(link)


def check_texts(release):
    """What a release says of itself: the notices of the kit's crates, the licence, and the least version of glibc, as README has it."""
    texts = {}
    for name in ("NOTICES.txt", "RELEASE.txt", "README.md"):
        with open(f"{release.at}/{name}", encoding="utf-8") as it:
            texts[name] = " ".join(it.read().split())
    if os.path.isfile(f"{TOP}/crates.txt"):
        rows = dict(re.findall(r"(?m)^(\w+).*?:([^#\n]*)", check.read("crates.txt")))
        own = {"midi_tool", *crate_graph.Graph(f"{TOP}/crates.txt").below["midi_tool"]}
        used = {use for it in own for use in rows[it].split()} - set(rows)
        yield from (f"NOTICES.txt doesn't name {it}" for it in sorted(used) if not re.search(rf"\b{it}\b", texts["NOTICES.txt"]))
    for name, text in texts.items():
        if "has chosen no licence" not in text:
            yield f"{name} doesn't say that there is no licence yet"
    if not shutil.which("objdump"):
        left_out("the least version of glibc", "objdump")
        return
    asked = re.findall(r"GLIBC_([0-9.]+)", ran(["objdump", "-T", f"{release.at}/libexec/larboardyuzu"])[1].decode())
    least = ".".join(map(str, max(tuple(map(int, it.split("."))) for it in asked)))
    yield from (f"{it} doesn't name glibc {least}" for it in ("RELEASE.txt", "README.md") if f"glibc {least} " not in texts[it])


def check_named(release):
    """The files of tools/ and examples/ that a user's page names."""
    for page in USERS_PAGES:
        for name in sorted(set(re.findall(r"\b(?:tools|examples)/[\w./-]*\w", check.read(page)))):
            if not os.path.exists(f"{release.at}/{name}"):
                yield f"{page} names {name}, which the release doesn't have"


def check_talk(release):
    code, output, _ = ran(["python3", f"{release.at}/tools/talk.py", f"{release.at}/libexec/larboardyuzu"], cwd=release.room)
    if code or not re.search(rb"\d+ tried, 0 failed\n$", output):
        yield f"tools/talk.py: exit code {code}, {output[-300:]}"


def check_install(release):
    """The release installs itself, and what is installed runs without it."""
    place = {**WITHOUT_KIT, "DESTDIR": f"{release.room}/place", "PREFIX": "/usr"}
    if (got := ran([f"{release.at}/tools/install.sh", "install"], env=place))[0]:
        yield f"tools/install.sh: {got}"
        return
    os.rename(f"{release.at}/libexec", f"{release.at}/gone")
    yield from tried(f"{release.room}/place/usr/bin/larboardyuzu", f"{release.at}/examples/endpoint.toml", release.room)
    if not os.path.isfile(f"{release.room}/place/usr/share/doc/larboardyuzu/NOTICES.txt"):
        yield "tools/install.sh installs no NOTICES.txt"
    os.rename(f"{release.at}/gone", f"{release.at}/libexec")
    ran([f"{release.at}/tools/install.sh", "uninstall"], env=place)
    left = [name for _, _, names in os.walk(f"{release.room}/place") for name in names]
    if left:
        yield f"tools/install.sh uninstall leaves {left}"


def check_missing(release):
    """A release whose program is gone says so, and builds nothing."""
    os.rename(f"{release.at}/libexec", f"{release.at}/gone")
    code, output, errors = ran([f"{release.at}/larboardyuzu", "selftest", "7"], env=NO_PATH)
    os.rename(f"{release.at}/gone", f"{release.at}/libexec")
    if (code, output) != (127, b"") or b"unpack it anew" not in errors:
        yield f"without its program: exit code {code}, {errors}"


def check_pages(release):
    """The blocks of the pages, which run in the release as they do in a checkout."""
    for page in ("README.md", "docs/examples.md"):
        blocks = [it for it in check.blocks_of(check.read(page)) if it[0] == "sh" and not re.search(check.BUILDS, it[1])]
        results = release.run([body for _, body, _ in blocks], **WITHOUT_KIT)
        for (_, body, wanted), result in zip(blocks, results):
            said, status, lacks = result or ("it wasn't reached", 1, set())
            if check.lacked(said, lacks):
                left_out(f"{page}: {check.head_of(body)}", ", ".join(sorted(check.lacked(said, lacks))))
            elif said != wanted if wanted is not None else status:
                yield f"{page}: the block that begins with: {check.head_of(body)}\n--- prints\n{said}--- and the page says\n{wanted}"
        print(f"release: {page}: {len(blocks)} blocks run", flush=True)


def check_man(release):
    if not shutil.which("man"):
        left_out("the man page", "man")
        return
    code, output, errors = ran(["man", "-M", f"{release.at}/man", "-w", "larboardyuzu"], env=WITHOUT_KIT)
    found = os.path.realpath(output.decode().strip())
    if code or found != os.path.realpath(f"{release.at}/docs/larboardyuzu.1"):
        yield f"man doesn't find the page: exit code {code}, {output}, {errors}"


def built(compiler, release, name, *linked):
    """The program of an example in C, or what the compiler says."""
    program = f"{release.room}/{name}"
    code, output, errors = ran([compiler, *STRICT, f"{release.at}/examples/c/{name}.c", "-o", program, *linked], env=WITHOUT_KIT)
    return (program, None) if code == 0 else (None, f"{compiler}, {name}.c: {(output + errors).decode()}")


def check_linked(release, compiler, how, linked, before=(), environment=None):
    """The examples in C with a library: what they print is what the repository says."""
    for name in ("down", "up", "block", "endpoint"):
        program, failed = built(compiler, release, name, *linked)
        if failed:
            yield f"{how}: {failed}"
            continue
        if before is None:
            continue
        with open(f"{TOP}/examples/c/expected/{name}", "rb") as it:
            wanted = it.read()
        if (got := ran([*before, program], env=environment or NO_PATH)) != (0, wanted, b""):
            yield f"{how}: {name}: {got}"
    print(f"release: {how}: examples in C {'linked' if before is None else 'run'}", flush=True)


def check_readme(release, linked):
    """The lines in C of README.md, whose comment says which bytes they write."""
    lines = next(body for kind, body, _ in check.blocks_of(check.read("README.md")) if kind == "c")
    wanted = re.search(r"/\* bytes: (.*) \*/", lines)[1]
    with open(f"{release.at}/examples/c/readme.c", "w", encoding="utf-8") as it:
        it.write(f'#include <stdio.h>\n#include "larboardyuzu.h"\nint main(void)\n{{\n{lines}'
                 'for (size_t at = 0; at < piece.written; at++) printf(at ? " %02X" : "%02X", bytes[at]);\n'
                 "larboardyuzu_down_close(&down);\nreturn 0;\n}\n")
    program, failed = built("cc", release, "readme", *linked)
    if failed or (got := ran([program], env=NO_PATH)) != (0, wanted.encode(), b""):
        yield f"README.md, in C: {failed or got}"


def check_x64(release):
    lib = f"{release.at}/lib"
    if not os.path.isfile(f"{lib}/liblarboardyuzu.a"):
        left_out("C on x86-64", "library for it in the release")
        return
    if not shutil.which("cc"):
        left_out("C on x86-64", "cc")
        return
    include = f"-I{release.at}/include"
    yield from check_linked(release, "cc", "C, the archive", [include, f"{lib}/liblarboardyuzu.a"])
    yield from check_readme(release, [include, f"{lib}/liblarboardyuzu.a"])
    yield from check_linked(release, "cc", "C, the shared library", [include, f"-L{lib}", "-llarboardyuzu"],
                            environment={"PATH": "", "LD_LIBRARY_PATH": lib})
    if not shutil.which("pkg-config"):
        left_out("C by pkg-config", "pkg-config")
        return
    found = ran(["pkg-config", "--cflags", "--libs", "larboardyuzu"], env={**WITHOUT_KIT, "PKG_CONFIG_PATH": f"{lib}/pkgconfig"})
    told = ran(["pkg-config", "--modversion", "larboardyuzu"], env={**WITHOUT_KIT, "PKG_CONFIG_PATH": f"{lib}/pkgconfig"})
    if found[0] or told[1].decode().strip() != check.read("VERSION").strip():
        yield f"pkg-config: {found}, {told}"
        return
    yield from check_linked(release, "cc", "C by pkg-config", found[1].decode().split(), environment={"PATH": "", "LD_LIBRARY_PATH": lib})


def check_arm64(release):
    library, compiler = f"{release.at}/lib/aarch64-linux-gnu/liblarboardyuzu.a", "aarch64-linux-gnu-gcc"
    if not os.path.isfile(library):
        left_out("C on 64-bit ARM", "library for it in the release")
        return
    if not shutil.which(compiler):
        left_out("C on 64-bit ARM", compiler)
        return
    runner = shutil.which("qemu-aarch64")
    if not runner:
        left_out("running C on 64-bit ARM", "qemu-aarch64")
    linked = [f"-I{release.at}/include", library, "-static"]
    yield from check_linked(release, compiler, "C on 64-bit ARM", linked, [runner] if runner else None)


def main(words):
    if len(words) != 1:
        print(__doc__, file=sys.stderr)
        return 2
    if not os.path.isfile(words[0]):
        print(f"release: there is no {words[0]}")
        return 1
    parts = (check_members, check_program, check_texts, check_named, check_talk, check_install, check_missing, check_pages, check_man,
             check_x64, check_arm64)
    with Unpacked(words[0]) as release:
        failed = [why for part in parts for why in part(release)]
    print(*failed, f"release: {len(failed)} failed" if failed else f"release: {os.path.basename(words[0])} runs without the kit", sep="\n")
    return 1 if failed else 0


if __name__ == "__main__":
    sys.exit(main(sys.argv[1:]))
