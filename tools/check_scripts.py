#!/usr/bin/env python3
"""check_scripts.py all: has each script and completion of the repository read by the tools that know its language.

They are shellcheck for scripts of sh and bash, and for zsh and fish the shells themselves, which read their completions without running them.
What needs a tool that isn't here is left out, with a line. The exit code is 1 if a tool complains."""
import os
import re
import shutil
import subprocess
import sys

TOP = os.path.dirname(os.path.dirname(os.path.abspath(__file__)))
# The first line of a script of sh or bash.
SHELL = re.compile(rb"#!.*\b(?:ba|da)?sh\b|# shellcheck shell=")
ZSH, FISH = ("completions/_larboardyuzu", "examples/helpers.sh"), ("completions/larboardyuzu.fish",)


def files():
    """The files of the repository: those that git has, or knows to be new."""
    listed = subprocess.run(["git", "-C", TOP, "ls-files", "-z", "-co", "--exclude-standard"], capture_output=True, text=True, check=False)
    return [it for it in listed.stdout.split("\0") if os.path.isfile(f"{TOP}/{it}")] if listed.returncode == 0 else None


def is_shell(path):
    with open(f"{TOP}/{path}", "rb") as it:
        return bool(SHELL.match(it.readline()))


def complaints(words, names):
    """What a tool says of these files, each given to it alone."""
    if not shutil.which(words[0]):
        print(f"scripts: {words[0]}: left out, since this machine has none", flush=True)
        return
    for name in names:
        done = subprocess.run([*words, name], cwd=TOP, stdin=subprocess.DEVNULL, capture_output=True, text=True, check=False)
        if done.returncode:
            yield f"{' '.join(words)} {name}:\n{done.stdout}{done.stderr}"
    print(f"scripts: {words[0]}: {len(names)} read", flush=True)


def main(words):
    if words != ["all"]:
        print(__doc__, file=sys.stderr)
        return 2
    names = files()
    if names is None:
        print("scripts: left out, since this folder is no repository of git")
        return 0
    wrong = [*complaints(["shellcheck", "-x", "-f", "gcc"], [it for it in names if is_shell(it)]), *complaints(["zsh", "-n"], ZSH),
             *complaints(["fish", "-n"], FISH)]
    print(*wrong, f"scripts: {len(wrong)} to mend" if wrong else "scripts: all as they should", sep="\n")
    return 1 if wrong else 0


if __name__ == "__main__":
    sys.exit(main(sys.argv[1:]))
