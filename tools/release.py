#!/usr/bin/env python3
"""release.py pack|sums|compare: the archive of a release, its bill of materials, and SHA256SUMS.

  release.py pack     writes out/larboardyuzu-VERSION.tar.gz of what is built and of the files of the repository that it needs. It refuses
                      what is older than its sources, and files that aren't as git has them, unless UNCOMMITTED=1 is set. It says so where
                      what is built differs from SHA256SUMS though it has the same sources. The same files and tools make the same archive,
                      byte for byte: the time in it is SOURCE_DATE_EPOCH, by default that of the commit. Beside the archive it writes the bill
                      of materials, which is in the archive too, and out/SHA256SUMS with the sums of both
  release.py sums     packs, and writes SHA256SUMS: the sums of the program, the libraries for C and the archive, each with that of its
                      sources
  release.py compare  compares what is built and packed with SHA256SUMS, wherever the sources are those of the sums; ends with 1 if
                      something differs
"""
import hashlib
import os
import re
import shutil
import subprocess
import sys

import bill
import built
from built import TOP

# What a release has of the repository: these, and all files in these folders that git has.
PACKED = ["README.md", "CONTRIBUTING.md", "CHANGELOG.md", "VERSION", "larboardyuzu", "docs", "completions", "include", "examples", "bindings",
          "tools/install.sh", "tools/draw_muids.py", "tools/editors.md", "tools/talk.py", "tools/when-a-proof-fails.md", "tools/faults.py", "tools/faults.c"]
# The files by which pkg-config and CMake find the library, and where they lie in a release.
DESCRIPTIONS = {"c/larboardyuzu.pc.in": "lib/pkgconfig/larboardyuzu.pc",
                **{f"c/{it}.in": f"lib/cmake/larboardyuzu/{it}" for it in ("larboardyuzuConfig.cmake", "larboardyuzuConfigVersion.cmake")}}
SUMS = f"{TOP}/SHA256SUMS"
LACKING = {"lib/liblarboardyuzu.a": ("the library for C", "make -C c"),
           "lib/aarch64-linux-gnu/liblarboardyuzu.a": ("the library for C for 64-bit ARM", "make -C c arm64")}
NO_LICENCE = "The owner of Larboardyuzu has chosen no licence for it yet, so this release grants none."


def name_of_release():
    return f"larboardyuzu-{built.version()}"


def archive():
    return f"{TOP}/out/{name_of_release()}.tar.gz"


def bill_beside():
    """The bill of materials that lies beside the archive."""
    return f"{TOP}/out/{name_of_release()}.spdx.json"


def sums_beside():
    """The sums that lie beside the archive."""
    return f"{TOP}/out/SHA256SUMS"


def git(*words):
    """What git prints, or None where it fails."""
    done = subprocess.run(["git", "-C", TOP, *words], capture_output=True, text=True, check=False)
    return done.stdout if done.returncode == 0 and os.path.exists(f"{TOP}/.git") else None


def packed_files():
    """The files of the repository that are packed: those that git has, or where there is no git all that are there."""
    listed = git("ls-files", "-z", "--", *PACKED)
    if listed is not None:
        return sorted(it for it in listed.split("\0") if it and os.path.isfile(f"{TOP}/{it}"))
    found = [f"{at}/{name}" for it in PACKED for at, _, names in os.walk(f"{TOP}/{it}") for name in names if "__pycache__" not in at]
    return sorted([os.path.relpath(it, TOP) for it in found] + [it for it in PACKED if os.path.isfile(f"{TOP}/{it}")])


def not_in_git():
    """What is packed or compiled, and isn't as the commit has it."""
    told = git("status", "--porcelain", "--untracked-files=all", "--", *PACKED, "crates", "crates.txt", "c")
    return ["this folder is no repository of git"] if told is None else [it[3:] for it in told.splitlines()]


def reasons_against():
    """Why no release is made of what lies here."""
    if not built.all_built()[0].is_there():
        yield f"there is no {built.PROGRAM}: `make` builds it"
    if not os.path.isdir(f"{built.kit()}/rlibs"):
        yield f"there is no kit in {built.kit()}, which has the notices of what is compiled in"
    yield from built.old()
    if os.environ.get("UNCOMMITTED") != "1":
        yield from (f"{it}: not as git has it; commit it, or set UNCOMMITTED=1 to try" for it in not_in_git())


def sum_of_sources():
    """The sum of all that the archive is made of."""
    return built.sum_of([*packed_files(), *DESCRIPTIONS, "tools/release.py", "tools/bill.py"], repr([(it.name, it.sum_of_sources()) for it in built.built()]))


def epoch():
    """The time of the files in the archive: as given, or that of the last sums where the sources are theirs, or that of the commit."""
    recorded = sums_in_repository()
    if "SOURCE_DATE_EPOCH" in os.environ:
        return int(os.environ["SOURCE_DATE_EPOCH"])
    if recorded and recorded.sources.get(os.path.basename(archive())) == sum_of_sources():
        return recorded.epoch
    time = git("log", "-1", "--format=%ct")
    return int(time) if time else int(os.stat(f"{TOP}/VERSION").st_mtime)


def least_glibc(path):
    """The least version of glibc that has all that this program asks for."""
    with open(path, "rb") as it:
        asked = {tuple(map(int, number.split(b"."))) for number in re.findall(rb"\0GLIBC_(\d+(?:\.\d+)+)(?=\0)", it.read())}
    return ".".join(map(str, max(asked, default=())))


def notices():
    """The text of NOTICES.txt: the owner's licence, and the notices of the crates of the kit that are compiled in, each text once."""
    texts, crates = {}, built.kit_crates(built.built())
    for crate in crates:
        folder = f"{built.kit()}/rattle/{crate}"
        for name in sorted(it for it in os.listdir(folder) if it.startswith("LICENSE")):
            texts.setdefault(built.kit_file(f"rattle/{crate}/{name}").strip(), []).append(f"{crate} ({name})")
    told = {name.partition(" ")[0] for names in texts.values() for name in names}
    yield f"{NO_LICENCE}\n\nWhat is built has code of crates of the Rattle kit. Their notices follow."
    yield f"Crates of the kit itself, which come without a notice: {', '.join(it for it in crates if it not in told)}."
    for text, names in sorted(texts.items(), key=lambda it: it[1]):
        yield f"{'=' * 78}\n{', '.join(names)}\n{'=' * 78}\n\n{text}"


def about():
    """The text of RELEASE.txt."""
    least = least_glibc(built.all_built()[0].at())
    yield f"Larboardyuzu {built.version()}, for 64-bit x86 Linux with glibc {least} or later."
    yield "`./larboardyuzu help` says what it does, README.md how to begin. `tools/install.sh` installs it."
    yield "Some pages link into crates/, to the sources, which a clone of the repository has."
    yield f"{NO_LICENCE} NOTICES.txt has the notices of the code that it uses."
    sums = [f"{it.sum_of_sources()}  {it.name}" for it in built.built()]
    yield "The sums of the sources, by which SHA256SUMS in the repository knows them:\n" + "\n".join(sums)


def write(path, parts):
    with open(path, "w", encoding="utf-8") as it:
        it.write("\n\n".join(parts) + "\n")


def add_wheel(stage):
    """Puts the package for Python, with the shared library in it, into a folder as a wheel."""
    library = f"{stage}/lib/liblarboardyuzu.so.{built.version()}"
    if os.path.isfile(library):
        os.makedirs(f"{stage}/python")
        words = [sys.executable, f"{TOP}/bindings/python/wheels.py", f"{stage}/python", library]
        subprocess.run(words, env={**os.environ, "SOURCE_DATE_EPOCH": str(epoch())}, stdout=subprocess.DEVNULL, check=True)


def fill(stage):
    """Puts all that is packed into a folder."""
    for source, target in [*((f"{TOP}/{it}", it) for it in packed_files()), *((it.at(), it.name) for it in built.built())]:
        os.makedirs(os.path.dirname(f"{stage}/{target}"), exist_ok=True)
        shutil.copy(source, f"{stage}/{target}")
    os.makedirs(f"{stage}/man/man1")
    os.symlink("../../docs/larboardyuzu.1", f"{stage}/man/man1/larboardyuzu.1")
    write(f"{stage}/NOTICES.txt", notices())
    write(f"{stage}/RELEASE.txt", about())
    add_wheel(stage)
    write(f"{stage}/{bill.NAME}", [bill.text()])
    shared = f"liblarboardyuzu.so.{built.version()}"
    if os.path.isfile(f"{stage}/lib/{shared}"):
        os.symlink(shared, f"{stage}/lib/{os.path.splitext(shared)[0]}")
        os.symlink(os.path.splitext(shared)[0], f"{stage}/lib/liblarboardyuzu.so")
    if os.path.isfile(f"{stage}/lib/liblarboardyuzu.a"):
        for source, target in DESCRIPTIONS.items():
            described = built.read(source).decode().replace("@PREFIX@", "${pcfiledir}/../..").replace("@VERSION@", built.version())
            os.makedirs(os.path.dirname(f"{stage}/{target}"), exist_ok=True)
            write(f"{stage}/{target}", [described.rstrip("\n")])


def pack():
    """Writes the archive; one that was there before is gone, whatever comes of it."""
    target, room = archive(), f"{TOP}/out/release"
    shutil.rmtree(room, ignore_errors=True)
    for path in (target, bill_beside(), sums_beside()):
        if os.path.exists(path):
            os.remove(path)
    if against := list(reasons_against()):
        print(*(f"release: {it}" for it in against), sep="\n", file=sys.stderr)
        return False
    for name, (what, by) in LACKING.items():
        if name not in [it.name for it in built.built()]:
            print(f"release: without {what}: `{by}` builds it")
    fill(f"{room}/{name_of_release()}")
    words = [os.environ.get("TAR", "tar"), "-C", room, "--sort=name", "--format=ustar", f"--mtime=@{epoch()}", "--owner=0", "--group=0",
             "--numeric-owner", "--mode=u=rwX,go=rX,a-s", "-cf", "-", name_of_release()]
    with open(f"{target}.part", "wb") as out, subprocess.Popen(words, stdout=subprocess.PIPE) as tar:
        zipped = subprocess.run(["gzip", "-9n"], stdin=tar.stdout, stdout=out, check=False).returncode
    shutil.rmtree(room)
    if tar.returncode or zipped:
        os.remove(f"{target}.part")
        return False
    os.rename(f"{target}.part", target)
    write(bill_beside(), [bill.text()])
    with open(sums_beside(), "w", encoding="utf-8") as it:
        it.writelines(f"{sum_of_file(path)}  {os.path.basename(path)}\n" for path in (target, bill_beside()))
    print(*(f"release: {it}" for it in differing()), f"release: {os.path.relpath(target, TOP)}", sep="\n")
    return True


class Sums:
    """What SHA256SUMS has: the time of the files in the archive, and of each file the sum of its sources and its own."""

    def __init__(self, text):
        self.epoch = int(re.search(r"(?m)^# SOURCE_DATE_EPOCH=(\d+)$", text)[1])
        self.sources = {it[2]: it[1] for it in re.finditer(r"(?m)^# sources ([0-9a-f]{64})  (.+)$", text)}
        self.files = {it[2]: it[1] for it in re.finditer(r"(?m)^([0-9a-f]{64})  (.+)$", text)}


def sums_in_repository():
    if not os.path.isfile(SUMS):
        return None
    with open(SUMS, encoding="utf-8") as it:
        return Sums(it.read())


def sum_of_file(path):
    with open(path, "rb") as it:
        return hashlib.sha256(it.read()).hexdigest()


def is_packed():
    """Whether the archive is here, and newer than all that it has."""
    parts = [f"{TOP}/{it}" for it in packed_files()] + [it.at() for it in built.built()]
    return os.path.isfile(archive()) and all(os.stat(it).st_mtime_ns <= os.stat(archive()).st_mtime_ns for it in parts)


def files_with_sums():
    """What SHA256SUMS names and is here: of each its name, its path and the sum of its sources."""
    found = [(it.name, it.at(), it.sum_of_sources()) for it in built.built()]
    if is_packed():
        found.append((os.path.basename(archive()), archive(), sum_of_sources()))
    return found


def differing():
    """What is built here and isn't what SHA256SUMS has for the same sources and tools, as a program that nothing has proved, as lines."""
    recorded = sums_in_repository()
    for it in built.built() if recorded else []:
        wanted = recorded.files.get(it.name)
        if wanted and it.sum_of_sources() == recorded.sources.get(it.name) and sum_of_file(it.at()) != wanted:
            yield f"{it.name} DIFFERS from SHA256SUMS, though it has the same sources: it isn't what the gate has built"


def write_sums():
    time, found = epoch(), files_with_sums()
    with open(SUMS, "w", encoding="utf-8") as it:
        it.write(f"# Larboardyuzu {built.version()}. `sha256sum -c --ignore-missing SHA256SUMS` compares an archive beside this file, or\n"
                 f"# in an unpacked one what was built; `make compare` compares a checkout.\n# SOURCE_DATE_EPOCH={time}\n")
        it.writelines(f"# sources {sources}  {name}\n" for name, _, sources in found)
        it.writelines(f"{sum_of_file(path)}  {name}\n" for name, path, _ in found)
    print(f"sums: {os.path.relpath(SUMS, TOP)}")


def compare():
    """Compares what is here with SHA256SUMS, and says how many files differ."""
    recorded = sums_in_repository()
    if recorded is None:
        print("sums: left out, since there is no SHA256SUMS yet: `make sums` writes it for a release")
        return 0
    here, differ = {name: (path, sources) for name, path, sources in files_with_sums()}, 0
    for name, wanted in recorded.files.items():
        path, sources = here.get(name, (None, None))
        if path is None:
            print(f"sums: {name}: left out, since it isn't built or packed here")
        elif sources != recorded.sources.get(name):
            print(f"sums: {name}: left out, since its sources or tools aren't those of the sums")
        elif sum_of_file(path) != wanted:
            differ += 1
            print(f"sums: {name}: DIFFERS from SHA256SUMS, though it has the same sources")
        else:
            print(f"sums: {name}: as in SHA256SUMS")
    return differ


def main(words):
    if words == ["pack"]:
        return 0 if pack() else 1
    if words == ["sums"]:
        return write_sums() if pack() else 1
    if words == ["compare"]:
        return 1 if compare() else 0
    print(__doc__.strip(), file=sys.stderr)
    return 2


if __name__ == "__main__":
    sys.exit(main(sys.argv[1:]))
