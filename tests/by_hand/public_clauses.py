#!/usr/bin/env python3
"""Prints each public clause that differs between two commits, under its function.

    tests/by_hand/public_clauses.py BEFORE [AFTER]      AFTER is HEAD if left out

A line `-` stood in BEFORE, and `+` stands in AFTER. Public are functions with `pub`, those of public traits, and those
of the library for C and of the module. What a clause says by words of `specs/` is not looked into.
"""
import os
import re
import subprocess
import sys

TOP = os.path.dirname(os.path.dirname(os.path.dirname(os.path.abspath(__file__))))
FUNCTION = re.compile(r"( *)(pub )?(?:const |unsafe |final )*(?:extern \"C\" )?fn (\w+)")


def git(*words):
    """What git prints."""
    return subprocess.run(["git", *words], cwd=TOP, capture_output=True, text=True, check=True).stdout


def clauses_of(lines, start, indent):
    """The clauses between a function's first line and its body, each on one line."""
    found = []
    for line in lines[start + 1:]:
        if re.match(rf" {{{indent}}}[{{}}]", line) or not line.strip() or FUNCTION.match(line):
            break
        text = line.strip().rstrip(";")
        if re.match(r"(requires|ensures|ghost)\b", text):
            found.append(text)
        elif found:
            found[-1] += " " + text
        if line.rstrip().endswith(";"):
            break
    return found


def functions_of(text):
    """Each public function of a file, with its clauses."""
    lines = text.split("\n")
    found, around = {}, ""
    for at, line in enumerate(lines):
        if re.match(r"(pub trait|impl)\b", line):
            around = re.sub(r"\s*\{?$", "", line)
        elif line.startswith("}"):
            around = ""
        function = FUNCTION.match(line)
        if function and (function[2] or around.startswith("pub trait")):
            clauses = clauses_of(lines, at, len(function[1]))
            if clauses:
                found[f"{around and around + ': '}{function[3]}"] = clauses
    return found


def at_commit(commit):
    """The public functions of each file of each crate."""
    files = [it for it in git("ls-tree", "-r", "--name-only", commit, "crates").split() if it.endswith(".rt")]
    return {file: functions_of(git("show", f"{commit}:{file}")) for file in files}


def main():
    if len(sys.argv) < 2:
        sys.exit(__doc__)
    before, after = at_commit(sys.argv[1]), at_commit(sys.argv[2] if sys.argv[2:] else "HEAD")
    for file in sorted({*before, *after}):
        old, new = before.get(file, {}), after.get(file, {})
        for name in sorted({*old, *new}):
            gone = [it for it in old.get(name, []) if it not in new.get(name, [])]
            come = [it for it in new.get(name, []) if it not in old.get(name, [])]
            if gone or come:
                print(f"{file}: {name}")
                print("".join(f"- {it}\n" for it in gone) + "".join(f"+ {it}\n" for it in come))


main()
