#!/usr/bin/env python3
"""Whether the command `wkt` reads the texts of tests/data/dialects.tsv as the table says, and refuses them where it
says.

command_dialects.py [WORD..]: the words that call the command; dist/out/wkt without any.
"""

import os
import subprocess
import sys

TOP = os.path.dirname(os.path.dirname(os.path.dirname(os.path.abspath(__file__))))
ESCAPES = {"n": "\n", "r": "\r", "t": "\t", "\\": "\\"}


def text_of(field):
    """The text that a field stands for."""
    parts = field.split("\\\\")
    for escape, c in ESCAPES.items():
        parts = [part.replace("\\" + escape, c) for part in parts]
    return "\\".join(parts)


def run(words, call, dialects, places, text):
    """What the command writes of one text, by a call."""
    call = [*words, call, "--whole", "-p", places, *(["--dialect", dialects] if dialects else [])]
    return subprocess.run(call, input=text.encode(), capture_output=True, check=False).stdout.decode()


def main(words):
    """Compares each row; the status."""
    rows = failed = 0
    with open(f"{TOP}/tests/data/dialects.tsv", encoding="utf-8") as lines:
        for line in lines:
            if line.startswith("#"):
                continue
            rows += 1
            dialects, places, field, _, key, place = line.rstrip("\n").split("\t")
            text = text_of(field)
            if key != "refused":
                wanted, found = key + "\n", run(words, "canon", dialects, places, text)
            else:
                before = text[: int(place) - 1]
                feeds, column = before.count("\n"), len(before) - before.rfind("\n")
                wanted = f"standard input:{feeds + 1}:{column}: "
                found = run(words, "check", dialects, places, text)[: len(wanted)]
            if found != wanted:
                failed += 1
                print(f"FAILED {dialects} {places} {field}: {found!r}, not {wanted!r}")
    print(f"{rows - failed} of {rows} texts in dialects as the table says")
    return 1 if failed or not rows else 0


if __name__ == "__main__":
    os.chdir(TOP)
    sys.exit(main(sys.argv[1:] or ["dist/out/wkt"]))
