#!/usr/bin/env python3
"""check_packing.py all: tries tools/release.py in copies of this repository, with what is built here.

Two copies in folders of other names, with other permissions and at other times, have to pack the same archive. What is missing, older than
its sources, changed or unknown to git has to be refused. SHA256SUMS has to agree with what it was made of, to find a byte that differs, and
to pass over what has other sources; packing has to say so where a byte differs. The bill of materials has to name what is packed. A program
without a proof, in out/unproved, is never installed, packed, summed up or given to the gate. The exit code is 1 if anything fails."""
import json
import os
import shutil
import subprocess
import sys
import tarfile
import tempfile

import bill
import built
import release
from built import TOP

COMMIT = ["-c", "user.name=check_packing", "-c", "user.email=none", "-c", "commit.gpgsign=false", "commit", "-q", "-m", "a copy"]
PROGRAM = "crates/midi_tool/out/midi_tool"
UNPROVED = "out/unproved/midi_tool"
# Takes the place of a tool that the gate calls, and tells the words in the file CALLS. As rt it says that all has passed.
TOOL = """#!/bin/sh
echo "${0##*/} $*" >>"$CALLS"
[ "${0##*/}" != rt ] || echo '1 passed, 0 failed'
"""


class Copy:
    """A repository with the files of this one, and with what is built."""

    def __init__(self, at, origin=None, umask=0o022):
        self.at, self.umask = at, umask
        if origin:
            subprocess.run(["git", "clone", "-q", origin.at, at], check=True, umask=umask)
        else:
            for it in release.git("ls-files", "-z", "-co", "--exclude-standard").split("\0"):
                if os.path.isfile(f"{TOP}/{it}"):
                    os.makedirs(os.path.dirname(f"{at}/{it}"), exist_ok=True)
                    shutil.copy(f"{TOP}/{it}", f"{at}/{it}")
            self.git("init", "-q")
            self.commit()
        for it in (it for it in built.built() if not os.path.isabs(it.path)):
            os.makedirs(os.path.dirname(f"{at}/{it.path}"), exist_ok=True)
            shutil.copyfile(it.at(), f"{at}/{it.path}")
            os.chmod(f"{at}/{it.path}", os.stat(it.at()).st_mode & ~umask)

    def git(self, *words):
        subprocess.run(["git", "-C", self.at, *words], check=True)

    def commit(self):
        self.git("add", "-A")
        self.git(*COMMIT)

    def run(self, *words, **more):
        """The exit code of these words in the copy, and all that they say."""
        env = {it: value for it, value in os.environ.items() if it not in ("UNCOMMITTED", "SOURCE_DATE_EPOCH", "PROGRAM", "LIBRARY")}
        how = {"stdin": subprocess.DEVNULL, "capture_output": True, "text": True, "umask": self.umask, "check": False}
        done = subprocess.run(words, cwd=self.at, env={**env, **more}, **how)
        return done.returncode, done.stdout + done.stderr

    def ask(self, *words):
        """The exit code of tools/release.py and all that it says."""
        return self.run("tools/release.py", *words)

    def archive(self):
        return f"{self.at}/out/{release.name_of_release()}.tar.gz"

    def sum(self):
        return release.sum_of_file(self.archive()) if os.path.isfile(self.archive()) else None

    def add(self, path, text):
        with open(f"{self.at}/{path}", "a", encoding="utf-8") as it:
            it.write(text)


def refuses(copy, what, reason):
    code, said = copy.ask("pack")
    if code != 1 or reason not in said or os.path.exists(copy.archive()):
        yield f"{what}: exit code {code}, {said}"


def check_same(first, second):
    """Both pack the same; the second one at a later time, since each of its files is newer."""
    for copy in (first, second):
        code, said = copy.ask("pack")
        if code:
            yield f"{copy.at}: exit code {code}, {said}"
    if first.sum() is None or first.sum() != second.sum():
        yield f"two copies pack archives with the sums {first.sum()} and {second.sum()}"


def check_beside(copy):
    """The sums beside the archive agree, and the bill beside it is that in it, and names what is packed with its sums."""
    code, said = copy.run("sh", "-c", "cd out && sha256sum -c SHA256SUMS")
    if code or said.count(": OK\n") != 2:
        yield f"the sums beside the archive: {said}"
    with tarfile.open(copy.archive()) as packed, open(f"{copy.at}/out/{release.name_of_release()}.spdx.json", "rb") as it:
        inside, beside = packed.extractfile(f"{release.name_of_release()}/{bill.NAME}").read(), it.read()
    if inside != beside:
        yield "the bill of materials in the archive isn't that beside it"
    told = json.loads(beside)
    sums = {it["fileName"]: [one["checksumValue"] for one in it["checksums"] if one["algorithm"] == "SHA256"] for it in told["files"]}
    if sums != (wanted := {f"./{it.name}": [release.sum_of_file(it.at())] for it in built.built()}):
        yield f"the bill of materials has the sums {sums}, and not {wanted}"
    crates = {it["name"]: it["versionInfo"] for it in told["packages"]}
    if sorted(crates) != sorted([*built.kit_crates(built.built()), "larboardyuzu"]) or not all(crates.values()):
        yield f"the bill of materials has the crates {crates}"
    names = {it["SPDXID"] for part in ("packages", "files") for it in told[part]} | {told["SPDXID"]}
    if lost := [it for it in told["relationships"] if not {it["spdxElementId"], it["relatedSpdxElement"]} <= names]:
        yield f"the bill of materials relates what it doesn't have: {lost}"


def check_refusals(copy):
    program = f"{copy.at}/{PROGRAM}"
    os.rename(program, f"{program}.away")
    yield from refuses(copy, "without a program", f"there is no {PROGRAM}")
    os.rename(f"{program}.away", program)
    time = os.stat(program).st_mtime
    os.utime(program, (0, 0))
    yield from refuses(copy, "with an old program", f"{PROGRAM} is older than crates/")
    os.utime(program, (time, time))
    copy.add("docs/new.md", "# New\n")
    yield from refuses(copy, "with a new page", "docs/new.md: not as git has it")
    os.remove(f"{copy.at}/docs/new.md")
    copy.add("README.md", "More.\n")
    yield from refuses(copy, "with a changed page", "README.md: not as git has it")
    copy.git("checkout", "-q", "README.md")
    code, said = copy.ask("pack")
    if code:
        yield f"once all is as it was: exit code {code}, {said}"


def compares(copy, what, code, says):
    got = copy.ask("compare")
    if got[0] != code or says not in got[1]:
        yield f"{what}: exit code {got[0]}, {got[1]}"


def check_sums(copy):
    if os.path.exists(f"{copy.at}/SHA256SUMS"):
        os.remove(f"{copy.at}/SHA256SUMS")
    yield from compares(copy, "without sums", 0, "there is no SHA256SUMS yet")
    if (got := copy.ask("sums"))[0]:
        yield f"sums: {got}"
        return
    before = copy.sum()
    copy.commit()
    yield from refuses_nothing(copy, before)
    yield from compares(copy, "with its own sums", 0, f"{release.name_of_release()}.tar.gz: as in SHA256SUMS")
    yield from check_unproved(copy, before)
    yield from check_gate(copy)
    with open(f"{copy.at}/{PROGRAM}", "r+b") as it:
        it.seek(-1, os.SEEK_END)
        last = it.read(1)[0]
        it.seek(-1, os.SEEK_END)
        it.write(bytes([last ^ 1]))
    yield from compares(copy, "with another byte in the program", 1, "libexec/larboardyuzu: DIFFERS")
    for words in (["tools/release.py", "pack"], ["tools/packages.py", "make"]):
        code, said = copy.run(*words)
        if code or ": libexec/larboardyuzu DIFFERS from SHA256SUMS, though it has the same sources" not in said:
            yield f"with another byte in the program, {words[0]}: exit code {code}, {said}"
    copy.add("crates/bit_scaling/src/lib.rt", "// more\n")
    yield from compares(copy, "with another source", 0, "libexec/larboardyuzu: left out, since its sources")


def check_unproved(copy, before):
    """A program without a proof takes no part in anything, whether the proved one is there or not."""
    os.makedirs(f"{copy.at}/out/unproved")
    with open(f"{copy.at}/{UNPROVED}", "wb") as it:
        it.write(b"#!/bin/sh\necho without a proof\n")
    os.chmod(f"{copy.at}/{UNPROVED}", 0o755)
    code, said = copy.ask("pack")
    if code or copy.sum() != before or "DIFFERS" in said:
        yield f"beside a program without a proof: exit code {code}, the sum {copy.sum()} and not {before}, {said}"
    os.rename(f"{copy.at}/{PROGRAM}", f"{copy.at}/{PROGRAM}.away")
    yield from refuses(copy, "with a program without a proof alone", f"there is no {PROGRAM}")
    # (the sums are there, so what isn't built is passed over)
    yield from compares(copy, "with a program without a proof alone", 0, "libexec/larboardyuzu: left out, since it isn't built or packed here")
    calls = {"make -s install": (2, f"there is no program {PROGRAM}"), "tools/packages.py make": (0, "without larboardyuzu for amd64"),
             "tools/release.py sums": (1, f"there is no {PROGRAM}")}
    for words, (wanted, says) in calls.items():
        code, said = copy.run(*words.split(), DESTDIR=f"{copy.at}/out/installed")
        if code != wanted or says not in said:
            yield f"with a program without a proof alone, {words}: exit code {code}, {said}"
    if os.path.exists(f"{copy.at}/out/installed/usr/local/libexec/larboardyuzu"):
        yield "a program without a proof is installed"
    os.rename(f"{copy.at}/{PROGRAM}.away", f"{copy.at}/{PROGRAM}")
    if (got := copy.ask("pack"))[0] or copy.sum() != before:
        yield f"once the proved program is there again: {got}"


def check_gate(copy):
    """The gate gives its checks the proved program, and none of them the one without a proof."""
    room = f"{copy.at}/out/stand-ins"
    os.mkdir(room)
    for name in ("rt", "python3", "make", "shellcheck", "zsh", "fish"):
        with open(f"{room}/{name}", "w", encoding="utf-8") as it:
            it.write(TOOL)
        os.chmod(f"{room}/{name}", 0o755)
    code, said = copy.run(".ci/run", PATH=f"{room}:/usr/bin:/bin", CALLS=f"{room}/calls")
    with open(f"{room}/calls", encoding="utf-8") as it:
        calls = it.read()
    if code or f"python3 tools/check.py {PROGRAM}\n" not in calls or "unproved" in calls + said:
        yield f"the gate, with tools that tell what they are asked: exit code {code}, {said}, {calls}"
    shutil.rmtree(room)


def refuses_nothing(copy, before):
    """A later commit of other files packs what the sums have, and sha256sum finds it."""
    code, said = copy.ask("pack")
    if code or copy.sum() != before:
        yield f"after the commit of the sums: exit code {code}, {before} became {copy.sum()}, {said}"
    done = subprocess.run(["sha256sum", "-c", "--ignore-missing", "../SHA256SUMS"], cwd=f"{copy.at}/out", capture_output=True, check=False)
    if done.returncode or b"OK" not in done.stdout:
        yield f"sha256sum: {done}"


def main(words):
    if words != ["all"]:
        print(__doc__, file=sys.stderr)
        return 2
    if not os.path.isfile(built.all_built()[0].at()):
        print(f"packing: there is no {PROGRAM}")
        return 1
    if release.git("rev-parse") is None:
        print("packing: left out, since this folder is no repository of git")
        return 0
    with tempfile.TemporaryDirectory(prefix="larboardyuzu-packing-") as room:
        first = Copy(f"{room}/one")
        second = Copy(f"{room}/another", first, 0o077)
        failed = [*check_same(first, second), *check_beside(first), *check_refusals(first), *check_sums(second)]
    print(*failed, f"packing: {len(failed)} failed" if failed else "packing: the same twice, and refused what it should", sep="\n")
    return 1 if failed else 0


if __name__ == "__main__":
    sys.exit(main(sys.argv[1:]))
