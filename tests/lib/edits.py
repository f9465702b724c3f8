#!/usr/bin/env python3
"""The mutants: edits that change what a function does, and that the checker has to refuse.

tests/data/mutants/CRATE.txt has those of a crate, each under a heading `# NAME`; crates/CRATE/must-fail those that
`rt ci` tries, each in a file. An edit has a line `file: PATH`, and then pairs of lines `old: TEXT` and `new: TEXT`;
each old text stands once in that file, when the pairs before it were applied.

edits.py check [CRATE..]: whether each fits. edits.py write CRATE FOLDER: one file each.
"""

import pathlib
import sys

TOP = pathlib.Path(__file__).resolve().parents[2]
FOLDER = TOP / "tests/data/mutants"


class Edit:
    """A mutant: for each change its file, and the old and the new text."""

    def __init__(self, crate, name, text):
        self.crate, self.name, self.text, self.changes = crate, name, text, []
        file = old = None
        for line in text.splitlines():
            word, _, rest = line.partition(": ")
            if word == "file":
                file = rest.strip()
            elif word == "old":
                old = rest
            elif line.startswith("new:"):
                self.changes.append((file, old, rest))

    def applied(self, folder):
        """Applies it in a copy of the crate."""
        for file, old, new in self.changes:
            path = pathlib.Path(folder, file)
            text = path.read_text(encoding="utf-8")
            if text.count(old) != 1:
                sys.exit(f"{self.crate}/{self.name}: stale")
            path.write_text(text.replace(old, new), encoding="utf-8")

    def faults(self):
        """Why it doesn't fit, for each change that doesn't."""
        texts = {}
        for file, old, new in self.changes:
            path = TOP / "crates" / self.crate / file
            text = texts.get(file)
            if text is None:
                text = path.read_text(encoding="utf-8") if path.is_file() else ""
            if text.count(old) != 1:
                times = f"{text.count(old)} times in {file}"
                yield f"{self.crate}/{self.name}: stale: its old text stands {times}: {old.strip()}"
            texts[file] = text.replace(old, new)
        if not self.changes:
            yield f"{self.crate}/{self.name}: changes nothing"


def crates():
    """The crates that have mutants."""
    gate = {path.parent.name for path in TOP.glob("crates/*/must-fail")}
    return sorted(gate | {path.stem for path in FOLDER.glob("*.txt")})


def beside(crate):
    """Those beside the gate."""
    path = FOLDER / f"{crate}.txt"
    parts = f"\n{path.read_text(encoding='utf-8')}".split("\n# ")[1:] if path.exists() else []
    return [Edit(crate, *part.split("\n", 1)) for part in parts]


def edits_of(crate):
    """All of a crate."""
    gate = sorted((TOP / "crates" / crate / "must-fail").glob("*.edit"))
    return beside(crate) + [Edit(crate, path.stem, path.read_text(encoding="utf-8")) for path in gate]


def check(names):
    faults, count = [], 0
    for crate in names:
        edits = edits_of(crate)
        count += len(edits)
        if not edits:
            faults.append(f"{crate}: no mutants")
        called = [edit.name for edit in edits]
        faults += [f"{crate}/{name}: stands twice" for name in sorted({it for it in called if called.count(it) > 1})]
        for edit in edits:
            faults += edit.faults()
    for fault in faults:
        print(fault)
    if not faults:
        print(f"each of {count} mutants applies")
    return 1 if faults else 0


def main():
    if sys.argv[1:2] == ["write"]:
        crate, folder = sys.argv[2:]
        for edit in beside(crate):
            pathlib.Path(folder, f"{edit.name}.edit").write_text(edit.text.strip("\n") + "\n", encoding="utf-8")
        return 0
    return check(sys.argv[2:] or crates())


if __name__ == "__main__":
    sys.exit(main())
