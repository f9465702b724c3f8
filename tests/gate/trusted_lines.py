#!/usr/bin/env python3
"""Prints what has to be believed to believe the statement `Headline`: each definition that it rests on, by file and
lines.

    trusted_lines.py            a line a file, and the sum
    trusted_lines.py --reading  with the clauses of `Wkt::from_str` and of the writers
    trusted_lines.py --calls    for the calls that people make: reading, writing, decimals, canonical text, lines
    trusted_lines.py --messages for the message of a refusal, and its place
    trusted_lines.py -v         each definition

It begins at `Headline` in crates/wkt_read/specs/Headline.antt, or at the definitions that are listed below, and follows
the names that each definition uses through the imports of its file. Lines are those of code: blank lines, comments and
imports aren't counted. What std defines isn't followed.
"""
import os
import re
import sys

ROOT = os.path.dirname(os.path.dirname(os.path.dirname(os.path.abspath(__file__))))
HEADLINE = ("wkt_read.specs.Headline", "Headline")
READING = [
    HEADLINE,
    ("wkt_read.specs.Answered", "IsFront"),
    ("wkt_read.specs.Front", "HasNoFront"),
    ("wkt_write.specs.Writes", "Writes"),
]
CALLS = [
    ("wkt_read.specs.Answered", "IsFront"),
    ("wkt_read.specs.Front", "HasNoFront"),
    ("wkt_write.specs.Writes", "Writes"),
    ("wkt_num.specs.Decimal", "read_decimal"),
    ("wkt_num.specs.Decimal", "decimal_text"),
    ("wkt_canonical.specs.Canonical", "IsCanonical"),
    ("wkt_lines.specs.Output", "IsOutput"),
]
MESSAGES = [
    ("wkt_read.specs.Refusal", "IsRefusedWith"),
    ("wkt_read.specs.Table", "IsReportedAt"),
]
STARTS = {"--reading": READING, "--calls": CALLS, "--messages": MESSAGES}
NAME = r"[^\s(){};,.:λ∀→×≡]+"


def path_of(module):
    crate, rest = module.split(".", 1)
    return os.path.join(ROOT, "crates", crate, *rest.split(".")) + ".antt"


class File:
    """The definitions of a file, with their lines, and where its names come from."""

    def __init__(self, module):
        self.module, self.imports, self.pieces = module, {}, {}
        with open(path_of(module), encoding="utf-8") as source:
            lines = source.read().split("\n")
        for line in lines:
            use = re.match(r"use Rattle\.(wkt[\w.]*)\.\{(.*)\}$", line)
            if use:
                for name in use.group(2).split(","):
                    name, _, here = name.strip().partition(" as ")
                    self.imports[here or name] = (use.group(1), name)
        self.cut(
            [
                line
                for line in lines
                if line.strip() and not line.strip().startswith("--") and not line.startswith("use ")
            ]
        )

    def cut(self, lines):
        """Cuts the code into pieces, each with the names that it defines."""
        piece, names, mutual = [], set(), False
        for line in lines:
            text = line.strip()
            signature = re.match(rf"(?:abbrev |unfoldable )?(?:pub )?(?:record |data )?({NAME})(?: [^=]*)? : ", text)
            depth = len(line) - len(line.lstrip())
            module = text.startswith("module ")
            if text.startswith("abbrev mutual") or text.startswith("mutual"):
                self.keep(piece, names)
                piece, names, mutual = [line], set(), True
                continue
            starts = signature and (depth == 0 or depth == 2 and not mutual and not self.in_record(piece)) or module
            if mutual and depth == 0:
                mutual = False
            if starts and not mutual:
                self.keep(piece, names)
                piece, names = ([], set()) if module else ([line], {signature.group(1)})
                continue
            piece.append(line)
            # Fields and constructors.
            if signature and (mutual or self.in_record(piece)):
                names.add(signature.group(1))
        self.keep(piece, names)

    @staticmethod
    def in_record(piece):
        return bool(piece) and re.search(r"\b(record|data)\b", piece[0]) is not None

    def keep(self, piece, names):
        if piece:
            entry = (sorted(names)[0] if len(names) == 1 else " ".join(sorted(names)), piece)
            for name in names:
                self.pieces.setdefault(name, entry)


def main():
    files, seen, todo = {}, {}, next((STARTS[word][:] for word in sys.argv if word in STARTS), [HEADLINE])
    while todo:
        module, name = todo.pop()
        if ".declared." in module or not os.path.exists(path_of(module)):
            continue
        file = files.setdefault(module, File(module)) if module not in files else files[module]
        if name not in file.pieces:
            continue
        key = (module, file.pieces[name][0])
        if key in seen:
            continue
        seen[key] = file.pieces[name][1]
        words = set(re.findall(NAME, " ".join(seen[key])))
        todo += [file.imports[word] for word in words if word in file.imports]
        todo += [(module, word) for word in words if word in file.pieces]
        operators = [(here, where) for here, where in file.imports.items() if "◌" in here]
        todo += [
            where
            for here, where in operators
            if all(part in words or part in " ".join(seen[key]) for part in here.split("◌") if part)
        ]
    total = 0
    for module in sorted(files):
        here = [(name, lines) for (where, name), lines in seen.items() if where == module]
        count = sum(len(lines) for _, lines in here)
        total += count
        print(f"{count:4} {os.path.relpath(path_of(module), ROOT)}")
        if "-v" in sys.argv:
            for name, lines in sorted(here):
                print(f"       {len(lines):3} {name}"[:120])
    print(f"{total:4} in {len(files)} files")


if __name__ == "__main__":
    main()
