#!/usr/bin/env python3
"""check_shells.py all|bash|zsh|fish..: presses Tab in these shells, each at a terminal of its own, and compares the line after it.

Every command, word and option of docs/help/ has to be completed; files after `<` and `>` and for SETUP; folders after --folder; and nothing
where a number is due. A shell that isn't here is left out, with a line. The exit code is 1 if a line becomes another."""
import contextlib
import os
import pty
import re
import select
import shutil
import signal
import sys
import tempfile
import time

TOP = os.path.dirname(os.path.dirname(os.path.abspath(__file__)))
FILES = ["input.ump", "stream.midi1", "two words.ump", "setup.toml", "result.txt"]
# What stands after a command's words where its options are asked for, and after an option that has a value.
AFTER = {"endpoint": " setup.toml", "selftest": " 7"}
VALUES = {"--folder": " out", "--group": " 1", "--cable": " 1", "--room": " 20", "--streams": " 20", "--packets": " 20"}
NUMBERS = [str(it) for it in range(16)]
# Tab is pressed at |, and what follows is what it adds.
LINES = [
    "show < in|put.ump", "show <in|put.ump", "show < two| words.ump", "show < input.ump >> re|sult.txt", "show 2> re|sult.txt",
    "show --bytes < stream.midi1 > re|sult.txt", "translate up < st|ream.midi1", "translate down --folder out < in|put.ump",
    "translate down < input.ump --fol|der", "clip < in|put.ump", "selftest 7 > re|sult.txt", "endpoint < in|put.ump",
    "endpoint setup.toml < in|put.ump", "endpoint se|tup.toml", "rehearse se|tup.toml", "endpoint --little se|tup.toml",
    "endpoint --room 9 se|tup.toml", "endpoint < input.ump se|tup.toml", r"endpoint < two\ words.ump se|tup.toml",
    "endpoint setup.toml --l|ittle", "translate down --folder o|ut/", "sysex8 --folder o|ut/", "translate --folder out d|own",
    "usb --folder out s|plit", "help tr|anslate", "he|lp", "--v|ersion",
    # A number is due, or no more words are.
    "show --room |", "translate down --room |", "sysex8 --folder out --streams |", "selftest |", "selftest 7 --packets |",
    "endpoint setup.toml --room |", "help translate |", "help translate d|", "clip |", "rehearse setup.toml |", "rehearse setup.toml se|",
    "translate down --folder in|", "show --bytes --l|", "show --state --st|",
]

# Each shell begins with no settings of anyone's own. Ctrl-T tells the line through the file descriptor TOLD, and empties it. Ctrl-Y puts
# all that a Tab would offer into the line, where the shell can do that.
BASH = r"""
PS1= PS2=; bind 'set enable-bracketed-paste off'; bind 'set completion-query-items 0'; bind 'set page-completions off'
tell() { printf '%s\n' "$READLINE_LINE" >&TOLD; READLINE_LINE= READLINE_POINT=0; }; bind -x '"\C-t": tell'; bind '"\C-y": insert-completions'
LOAD; echo ready >&TOLD
"""
ZSH = r"""
PS1= PS2=; unsetopt zle_bracketed_paste prompt_sp prompt_cr; LOAD; LISTMAX=1000
autoload -Uz compinit; compinit -u -D; tell() { print -r -- "$BUFFER" >&TOLD; BUFFER=; zle reset-prompt }; zle -N tell; bindkey '^T' tell
all() { _main_complete; compstate[insert]=all compstate[list]= }; zle -C all complete-word all; bindkey '^Y' all; print ready >&TOLD
"""
FISH = r"""
function fish_prompt; end; function fish_right_prompt; end; set -g fish_greeting; set -g fish_autosuggestion_enabled 0
function tell; commandline >&TOLD; commandline -r ''; end; bind \ct tell
function all; echo (complete -C (commandline -c) | string replace -r '\t.*' '') >&TOLD; commandline -r ''; end; bind \cy all
LOAD; echo ready >&TOLD
"""
SHELLS = {"bash": (["bash", "--norc", "--noprofile", "-i"], BASH), "zsh": (["zsh", "-f", "-i"], ZSH), "fish": (["fish", "-i"], FISH)}
# What makes a shell know the completions of the repository.
LOADS = {"bash": f"source {TOP}/completions/larboardyuzu.bash", "zsh": f"fpath=({TOP}/completions $fpath)",
         "fish": f"set -p fish_complete_path {TOP}/completions"}
FILE = {"bash": "larboardyuzu.bash", "zsh": "_larboardyuzu", "fish": "larboardyuzu.fish"}


def commands_of():
    """What the help has: each command, with its second word where it has one, and its options; those of both forms of show in one list."""
    with open(f"{TOP}/docs/help/commands.txt", encoding="utf-8") as it:
        lines = re.findall(r"(?m)^  (\w.*)$", it.read())
    found = {}
    for line in lines:
        words = re.match(r"(?:[a-z]\w*\s?)+", line)[0].strip()
        options = found.setdefault(words, [])
        options += [it for it in re.findall(r"--\w+", line) if it not in options]
    return found


class Shell:
    """A shell at a terminal, in a folder with FILES and a folder `out`."""

    def __init__(self, name, room, load):
        words, setup = SHELLS[name]
        self.name = name
        self.told, theirs = os.pipe()
        self.process, self.end = pty.fork()
        if not self.process:
            os.chdir(room)
            os.dup2(theirs, 9)
            own = {"PATH": f"{room}:{os.environ['PATH']}", "HOME": room, "TERM": "dumb", "LC_ALL": "C.UTF-8", "HISTFILE": ""}
            os.execvpe(words[0], words, own)
        os.close(theirs)
        os.set_blocking(self.told, False)
        self.type(setup.replace("TOLD", "9").replace("LOAD", load).strip() + "\n")
        self.is_ready = self.hear(20) == "ready"

    def type(self, text):
        os.write(self.end, text.encode())

    def hear(self, wait=10):
        """The next line that the shell tells; what it prints is passed over."""
        got, ends = b"", time.monotonic() + wait
        while time.monotonic() < ends and not got.endswith(b"\n"):
            for ready in select.select([self.told, self.end], [], [], 0.05)[0]:
                # (Linux gives an error for the terminal of a shell that has ended)
                with contextlib.suppress(OSError):
                    part = os.read(ready, 65536)
                    got += part if ready == self.told else b""
        return got.decode(errors="replace").strip("\n") if got.endswith(b"\n") else "(no answer)"

    def press(self, line, key="\t", program="larboardyuzu"):
        """The line after a key, without the program."""
        self.type(f"{program} {line}{key}")
        if self.name != "fish" or key == "\t":
            self.type("\x14")
        return self.hear().rstrip().removeprefix(f"{program} ")

    def offered(self, line):
        """All words that are offered for the last one of the line."""
        told = self.press(line, "\x19")
        before = line[: line.rfind(" ") + 1]
        return sorted((told if self.name == "fish" else told.removeprefix(before.rstrip()).removeprefix(" ")).split())

    def close(self):
        os.kill(self.process, signal.SIGKILL)
        os.close(self.end)
        os.close(self.told)
        os.waitpid(self.process, 0)


def choices(commands):
    """Lines, and all that is offered for their last word."""
    first = list(dict.fromkeys(it.split()[0] for it in commands))
    yield "", [*first, "help"]
    yield "help ", first
    for it in first:
        if second := [words.split()[1] for words in commands if words.startswith(f"{it} ")]:
            yield f"{it} ", second
            yield f"{it} --folder out ", second
    for words, options in commands.items():
        before = words + AFTER.get(words, "")
        yield f"{before} --", options
        # (show has two forms)
        for option in [it for it in options if words != "show" or it not in ("--bytes", "--little")]:
            yield f"{before} {option}{VALUES.get(option, '')} --", [it for it in options if it != option]
    yield "show --bytes --", ["--state", "--room"]
    yield "show --little --", ["--state", "--room"]
    yield "translate up --group ", NUMBERS
    yield "usb pack --cable 1", [it for it in NUMBERS if it.startswith("1")]


def check_shell(name, load):
    with tempfile.TemporaryDirectory(prefix="larboardyuzu-shell-") as room:
        os.mkdir(f"{room}/out")
        # (without this, fish reads all man pages of the machine meanwhile)
        os.makedirs(f"{room}/.local/share/fish/generated_completions")
        # (fish completes no command that isn't there)
        for it in [*FILES, "larboardyuzu"]:
            with open(f"{room}/{it}", "wb"):
                pass
        os.chmod(f"{room}/larboardyuzu", 0o755)
        shell, tried = Shell(name, room, load), 0
        where = f"completions/{FILE[name]}"
        try:
            if not shell.is_ready:
                yield f"{where}: {name} doesn't begin"
                return
            for line, adds in (it.split("|") for it in LINES):
                tried += 1
                # (a shell writes a space in a file name with a backslash)
                wanted = (line + adds.replace(" ", r"\ ")).rstrip()
                for program in ("larboardyuzu", "./larboardyuzu"):
                    if (got := shell.press(line, program=program)) != wanted:
                        yield f"{where}: {program} {line} and a Tab gives {got!r}, and not {wanted!r}"
            for line, wanted in choices(commands_of()):
                tried += 1
                # (beside its commands a shell may offer what the script itself takes)
                got = [it for it in shell.offered(line) if line or not it.startswith("-")]
                # (where there is nothing, bash and zsh leave the line as it is)
                if got != sorted(wanted) and (wanted or got != [line.split()[-1]]):
                    yield f"{where}: larboardyuzu {line} offers {' '.join(got)}, and the help has {' '.join(sorted(wanted))}"
        finally:
            shell.close()
    print(f"{where}: {tried} lines completed by Tab in {name}", flush=True)


def check(loads):
    """Tries the shells of which it is said what makes them know the completions."""
    for name, load in loads.items():
        if shutil.which(name):
            yield from check_shell(name, load)
        else:
            print(f"completions/{FILE[name]}: left out, since this machine has no {name}", flush=True)


def main(words):
    names = list(SHELLS) if words == ["all"] else words
    if not words or not set(names) <= set(SHELLS):
        print(__doc__, file=sys.stderr)
        return 2
    wrong = list(check({it: LOADS[it] for it in names}))
    print(*wrong, f"completions: {len(wrong)} differ" if wrong else "completions: all as they should", sep="\n")
    return 1 if wrong else 0


if __name__ == "__main__":
    sys.exit(main(sys.argv[1:]))
