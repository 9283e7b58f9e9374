#!/usr/bin/env python3
"""packages.py make: writes what is built as Debian packages into out/deb.

They are the program (larboardyuzu) and the library for C with its headers (liblarboardyuzu-dev) for amd64, and the library for arm64; what
isn't built is left out, with a line. The files come from tools/install.sh, the version from VERSION, and their time is SOURCE_DATE_EPOCH,
by default that of the commit: the same files make the same packages, byte for byte."""
import email.utils
import gzip
import hashlib
import os
import re
import shutil
import subprocess
import sys

import bill
import built
import release
from built import TOP

FOLDER = f"{TOP}/out/deb"
MAINTAINER = "Larboardyuzu maintainers <maintainers@users.noreply.larboardyuzu.example>"
PROGRAM = """MIDI 2.0 packets to MIDI 1.0 bytes and back, proved
 Translates MIDI 2.0 packets (UMP) into MIDI 1.0 bytes and back, answers a
 peer as a MIDI 2.0 endpoint, and prints packets, streams and clips. Every
 public call of its libraries is proved to meet its contract.
"""
LIBRARY = """MIDI 2.0 packets to MIDI 1.0 bytes and back, library for C
 The translators, the parser, the endpoint, the running state, SysEx8 and
 USB-MIDI events of Larboardyuzu, with headers for C and C++.
"""

# The terms of the Apache License in a notice, and the sum of their words: each Debian system has them in this file.
APACHE = re.compile(r"[ \t]*Apache License\s+Version 2\.0.*?(TERMS AND CONDITIONS FOR USE.*?END OF TERMS AND CONDITIONS)", re.DOTALL)
APACHE_SUM = "b316b715c7f48af32f6265b3de80b9656fdbddc57f5854215c8a4c6e0ad42c05"
APACHE_FILE = "/usr/share/common-licenses/Apache-2.0"
# What lintian finds in a package, or in one with the shared library, and why it is so.
SAME_BITS = ("unstripped-binary-or-object", "the file is that of the release, bit for bit, so that it has the same sum")
ONE_PACKAGE = "one package has the whole library: the headers, the archive and the shared library"
FOUND = {
    "larboardyuzu": [SAME_BITS, ("zero-byte-file-in-doc-directory", "an empty py.typed says that the package for Python has type hints")],
    "liblarboardyuzu-dev": [SAME_BITS, ("link-to-shared-library-in-wrong-package", ONE_PACKAGE),
                            ("package-name-doesnt-match-sonames", ONE_PACKAGE)],
}


def packages():
    """Each package: its name, part, processor, the built files that it needs, and what it says of itself."""
    program, archive, shared, arm64 = built.all_built()
    yield "larboardyuzu", "program", "amd64", [program], PROGRAM
    yield "liblarboardyuzu-dev", "library", "amd64", [archive, shared], LIBRARY
    yield "liblarboardyuzu-dev", "library", "arm64", [arm64], LIBRARY


def control(name, processor, needed, says, size):
    linked = [it for it in needed if not it.path.endswith(".a")]
    least = release.least_glibc(linked[0].at()) if linked else None
    depends = f"Depends: libc6 (>= {least})\n" if least else ""
    section = "sound" if name == "larboardyuzu" else "libdevel"
    return (f"Package: {name}\nVersion: {built.version()}\nArchitecture: {processor}\nMaintainer: {MAINTAINER}\nInstalled-Size: {size}\n"
            f"{depends}Section: {section}\nPriority: optional\nHomepage: {bill.HOME}\nDescription: {says}")


def folders(processor):
    triplet = {"amd64": "x86_64-linux-gnu", "arm64": "aarch64-linux-gnu"}[processor]
    return {"PREFIX": "/usr", "LIBDIR": f"/usr/lib/{triplet}", "ZSHDIR": "/usr/share/zsh/vendor-completions"}


def size_of(stage):
    """The size of the files in kilobytes, each rounded up, as Debian counts it."""
    files = [f"{at}/{it}" for at, _, names in os.walk(stage) for it in names]
    return sum((os.lstat(it).st_size + 1023) // 1024 for it in files)


def changelog(name, time):
    """One entry in Debian's form, that leads to the changes."""
    says = f"{name} ({built.version()}) unstable; urgency=medium\n\n  * CHANGELOG.md of the program has the changes.\n\n"
    return f"{says} -- {MAINTAINER}  {email.utils.formatdate(time)}\n"


def without_terms(found):
    """What replaces what APACHE found: the name of Debian's file, if the words are exactly the licence's."""
    words = " ".join(found[1].split())
    if hashlib.sha256(words.encode()).hexdigest() != APACHE_SUM:
        return found[0]
    return f"Apache License, Version 2.0. {APACHE_FILE} has its terms."


def copyright_texts():
    """The notices of a release without the terms of the Apache License. What a crate wrote after them stays."""
    return [APACHE.sub(without_terms, text) for text in release.notices()]


def overrides(name):
    """The text of the package's overrides: what lintian finds and is so on purpose, each with its reason."""
    return "\n".join(f"# {why}\n{name}: {tag}" for tag, why in FOUND[name])


def sums_of(stage):
    """The text of md5sums: each file of a package, with its sum."""
    files = sorted(os.path.relpath(f"{at}/{it}", stage) for at, _, names in os.walk(stage) for it in names)
    for it in (it for it in files if not os.path.islink(f"{stage}/{it}")):
        with open(f"{stage}/{it}", "rb") as file:
            yield f"{hashlib.md5(file.read()).hexdigest()}  {it}"


def symbols():
    """The lines of the symbols file: each call of the header, as the map of the shared library versions it, and since when it is there."""
    node = re.match(r"\w+", built.read("c/larboardyuzu.map").decode())[0]
    text = re.sub(r"(?s)/\*.*?\*/", "", built.read("include/larboardyuzu.h").decode())
    yield f"liblarboardyuzu.so.{os.path.splitext(built.version())[0]} liblarboardyuzu-dev #MINVER#"
    yield f" {node}@{node} {built.version()}"
    yield from (f" {it}@{node} {built.version()}" for it in sorted(set(re.findall(r"\b(larboardyuzu_\w+)\(", text))))


def describe_shared(folder):
    """Writes that the loader has to learn of the shared library, and on what a program that uses it depends."""
    soname = os.path.splitext(built.version())[0]
    release.write(f"{folder}/triggers", ["activate-noawait ldconfig"])
    release.write(f"{folder}/shlibs", [f"liblarboardyuzu {soname} liblarboardyuzu-dev (>= {built.version()})"])
    release.write(f"{folder}/symbols", ["\n".join(symbols())])


def compress(text, target):
    """As Debian has man pages and changelogs."""
    with open(target, "wb") as out:
        out.write(gzip.compress(text, 9, mtime=0))


def make(name, part, processor, needed, says):
    """Writes a package, and returns its path."""
    stage, target = f"{FOLDER}/{name}-{processor}", f"{FOLDER}/{name}_{built.version()}_{processor}.deb"
    shutil.rmtree(stage, ignore_errors=True)
    # (dpkg has its own list of what is installed)
    env = {"PATH": os.environ["PATH"], "DESTDIR": stage, "LIST": "none", **folders(processor)}
    env |= {"PROGRAM": needed[0].at()} if part == "program" else {"LIBRARY": os.path.dirname(needed[0].at())}
    subprocess.run([f"{TOP}/tools/install.sh", "install", part], env=env, check=True)
    if part == "program":
        compress(built.read("docs/larboardyuzu.1"), f"{stage}/usr/share/man/man1/larboardyuzu.1.gz")
        os.remove(f"{stage}/usr/share/man/man1/larboardyuzu.1")
    os.makedirs(f"{stage}/usr/share/doc/{name}", exist_ok=True)
    compress(changelog(name, release.epoch()).encode(), f"{stage}/usr/share/doc/{name}/changelog.gz")
    release.write(f"{stage}/usr/share/doc/{name}/copyright", copyright_texts())
    has_shared = len(needed) > 1
    if part == "program" or has_shared:
        os.makedirs(f"{stage}/usr/share/lintian/overrides")
        release.write(f"{stage}/usr/share/lintian/overrides/{name}", [overrides(name)])
    size, sums = size_of(stage), "\n".join(sums_of(stage))
    os.makedirs(f"{stage}/DEBIAN")
    release.write(f"{stage}/DEBIAN/md5sums", [sums])
    if has_shared:
        describe_shared(f"{stage}/DEBIAN")
    release.write(f"{stage}/DEBIAN/control", [control(name, processor, needed, says, size).rstrip("\n")])
    subprocess.run(["chmod", "-R", "u=rwX,go=rX,a-s", stage], check=True)
    env = {**os.environ, "SOURCE_DATE_EPOCH": str(release.epoch())}
    # (whose tool knows no zstd can unpack xz)
    subprocess.run(["dpkg-deb", "--root-owner-group", "-Zxz", "--build", stage, target], env=env, stdout=subprocess.DEVNULL, check=True)
    shutil.rmtree(stage)
    return target


def main(words):
    if words != ["make"]:
        print(__doc__.strip(), file=sys.stderr)
        return 2
    os.makedirs(FOLDER, exist_ok=True)
    print(*(f"deb: {it}\n" for it in release.differing()), sep="", end="")
    for name, part, processor, needed, says in packages():
        if lacking := [it for it in needed if not it.is_there()]:
            print(f"deb: without {name} for {processor}: `{lacking[0].by}` builds {lacking[0].path}")
        else:
            print(f"deb: {os.path.relpath(make(name, part, processor, needed, says), TOP)}")
    return 0


if __name__ == "__main__":
    sys.exit(main(sys.argv[1:]))
