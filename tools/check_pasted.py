#!/usr/bin/env python3
"""check_pasted.py PROGRAM [PAGE..]: pastes each `sh` block of the pages into an interactive bash and zsh, and compares what it gives.

Each shell is at a terminal of its own, in a copy of this repository with this program and without its sources. What a block gives has to be
what the page says, as check.py has it of a shell that reads a file; the lines that a shell prints of its jobs are passed over. With no pages it
pastes those of README.md, CONTRIBUTING.md and docs/*.md; check.py runs it too. A shell that isn't here is left out, with a line. The exit
code is 1 if anything differs."""
import contextlib
import os
import pty
import re
import select
import shutil
import signal
import sys
import time

import check

SHELLS = {"bash": ["bash", "--norc", "--noprofile", "--noediting", "-i"], "zsh": ["zsh", "-f", "-i"]}
# The shells print no prompts. A command that isn't found is told as check.py's shell tells it.
SETUP = {"bash": "PS1= PS2=; command_not_found_handle() { echo \"$1\" >>\"$LOG/$PIECE.lacks\"; return 127; }",
         "zsh": "PS1= PS2= RPS1=; unsetopt zle prompt_sp prompt_cr; command_not_found_handler() { echo \"$1\" >>\"$LOG/$PIECE.lacks\"; return 127; }"}
# What a shell says of a job, with its number and what zsh says of each process.
JOBS = r"(?m)^\[\d+\].*\n|^\s+(?:- )?\d* *(?:done|running|terminated|exit \d+) .*\n"
# The most seconds that a block may take: one of them goes on without an end if a shell waits for an answer.
MOST = 300


class Shell:
    """An interactive shell at a terminal."""

    def __init__(self, name, room):
        self.room = room
        self.process, self.end = pty.fork()
        if not self.process:
            os.chdir(room.at)
            own = {"PATH": os.environ["PATH"], "HOME": room.log, "TERM": "dumb", "LC_ALL": "C.UTF-8", "HISTFILE": "", "LOG": room.log}
            os.execvpe(SHELLS[name][0], SHELLS[name], own)

    def wait_for(self, name, most):
        """Waits until there is this file in the log; what the shell prints at its terminal is read and dropped."""
        ends = time.monotonic() + most
        while time.monotonic() < ends and not os.path.exists(f"{self.room.log}/{name}"):
            if select.select([self.end], [], [], 0.05)[0]:
                # (Linux gives an error for the terminal of a shell that has ended)
                with contextlib.suppress(OSError):
                    os.read(self.end, 65536)
        return os.path.exists(f"{self.room.log}/{name}")

    def type(self, text):
        """Types a text, while what the terminal echoes is read."""
        data = text.encode()
        while data:
            reads, writes, _ = select.select([self.end], [self.end], [])
            if reads:
                os.read(self.end, 65536)
            if writes:
                data = data[os.write(self.end, data[:512]):]

    def paste(self, number, block):
        """Pastes a block; returns what it printed, its status and the tools that it lacked, or None if it doesn't end."""
        self.type(f'PIECE={number}; exec >"$LOG/{number}.said" 2>&1\n')
        self.type(block)
        self.type(f'echo $? >"$LOG/{number}.part"; mv "$LOG/{number}.part" "$LOG/{number}.status"\n')
        return self.room.result(number) if self.wait_for(f"{number}.status", MOST) else None

    def close(self):
        """Ends the shell, with what it has started in the background."""
        for process in (-self.process, self.process):
            with contextlib.suppress(OSError):
                os.kill(process, signal.SIGKILL)
        os.close(self.end)
        os.waitpid(self.process, 0)


def check_page(program, page, name):
    """Pastes the blocks of a page into one shell, and yields what differs."""
    blocks = [it for it in check.blocks_of(check.read(page)) if it[0] in ("sh", "bash") and not re.search(check.BUILDS, it[1])]
    if not blocks:
        return
    with check.Room(program) as room:
        shell = Shell(name, room)
        try:
            shell.type(SETUP[name] + ' && : >"$LOG/ready"\n')
            if not shell.wait_for("ready", MOST):
                yield f"{page}: {name} doesn't begin"
                return
            for number, (_, body, wanted) in enumerate(blocks):
                result = shell.paste(number, body)
                if result is None:
                    yield f"{page}: pasted into {name}, this block doesn't end: {check.head_of(body)}"
                    return
                yield from compare(page, name, body, wanted, result)
        finally:
            shell.close()
    print(f"{page}: {len(blocks)} blocks pasted into {name}", flush=True)


def compare(page, name, body, wanted, result):
    said, status, lacks = result
    said = re.sub(JOBS, "", said)
    if check.lacked(said, lacks):
        return
    if wanted is not None and said != wanted:
        yield f"{page}: pasted into {name}, the block that begins with: {check.head_of(body)}\n--- prints\n{said}--- and the page says\n{wanted}"
    elif wanted is None and status:
        yield f"{page}: pasted into {name}, exit code {status} of the block that begins with: {check.head_of(body)}\n{said}"


def check_pages(program, pages):
    for name in SHELLS:
        if shutil.which(name):
            yield from (why for page in pages for why in check_page(program, page, name))
        else:
            print(f"pasted blocks: left out, since this machine has no {name}", flush=True)


def main(words):
    if not words:
        print(__doc__, file=sys.stderr)
        return 2
    program = os.path.abspath(words[0])
    if not os.path.isfile(program):
        print(f"check_pasted.py: there is no program {program}: build it by ./larboardyuzu prove")
        return 1
    differ = list(check_pages(program, words[1:] or check.pages()))
    print(*differ, f"pasted: {len(differ)} differ" if differ else "pasted: all as the pages say", sep="\n")
    return 1 if differ else 0


if __name__ == "__main__":
    sys.exit(main(sys.argv[1:]))
