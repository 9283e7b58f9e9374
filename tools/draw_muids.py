#!/usr/bin/env python3
"""draw_muids.py SETUP: prints a setup with new MUIDs.

Each number in the setup's lists `muids` is replaced by a random one from 0 to 268,435,199, and no number is drawn twice. The rest stays as it
is. The exit code is 1 if the setup can't be read or has no MUID, and nothing is printed then."""
import re
import secrets
import sys

# The numbers above are reserved, and the highest one is for messages to all.
MUIDS = range(0x0FFFFF00)
LIST = re.compile(r"(?m)^([ \t]*muids[ \t]*=[ \t]*)\[([^\]]*)\]")
NUMBER = re.compile(r"(?:#[^\n]*)|\b(?:0x[0-9A-Fa-f_]+|[0-9][0-9_]*)\b")


def draw(text):
    """The setup with MUIDs drawn anew, or None if it has none."""
    drawn = set()

    def new(found):
        if found[0].startswith("#"):
            return found[0]
        while (number := secrets.choice(MUIDS)) in drawn:
            pass
        drawn.add(number)
        return str(number)

    changed = LIST.sub(lambda it: f"{it[1]}[{NUMBER.sub(new, it[2])}]", text)
    return changed if drawn else None


def main(words):
    if len(words) != 1:
        print(__doc__, file=sys.stderr)
        return 2
    try:
        with open(words[0], encoding="utf-8") as it:
            text = draw(it.read())
    except (OSError, UnicodeDecodeError) as error:
        print(f"draw_muids.py: {words[0]}: {error}", file=sys.stderr)
        return 1
    if text is None:
        print(f"draw_muids.py: {words[0]} has no list `muids` with a number", file=sys.stderr)
        return 1
    sys.stdout.write(text)
    return 0


if __name__ == "__main__":
    sys.exit(main(sys.argv[1:]))
