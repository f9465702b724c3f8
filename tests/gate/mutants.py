#!/usr/bin/env python3
"""Tries the mutants, each by the functions that it changes: mutants.py [--promises|--stale] [CRATE[/NAME]..]

A mutant has to be refused. The functions that it changes are checked alone, in seconds, several at a time, over the
libraries that `rt ci` left. Those of functions with clauses are made some at a time in one copy of their crate: there
a function is proved from the clauses of those that it calls. Where it isn't proved since one of these isn't, its mutant
is tried alone. A mutant that its functions let through is tried by its file and then by its crate, since a function
without clauses is held by those that call it.

tests/data/mutants/SEEN says of each mutant in which state of its crate it was last seen refused, the oldest first.
The state is made of the mutant, of its crate, and of the definitions of all crates below: where one changes, the mutant
is stale. --stale tries those alone. --promises tries `promise-..` alone, of which each breaks a promise of the README,
and says how many are stale. Mutants of crates/*/must-fail are not listed, since `rt ci` tries these each time.

It needs the toolchain, and what `rt ci` left in crates/CRATE/out.
"""

import argparse
import concurrent.futures
import functools
import hashlib
import os
import pathlib
import re
import shutil
import subprocess
import sys
import tempfile

sys.path.insert(0, str(pathlib.Path(__file__).resolve().parents[1] / "lib"))
from edits import FOLDER, beside, crates as all_crates, edits_of  # noqa: E402 (found by the line above)
from lib_for_c import TOP, below, library_words, uses_of  # noqa: E402

SEEN = FOLDER / "SEEN"

FUNCTION = re.compile(r"\s*(?:pub(?:\([a-z]+\))?\s+)?(?:const\s+)?(?:unsafe\s+)?(?:extern \"C\" )?fn\s+(\w+)")
IMPL = re.compile(r"impl(?:<[^{]*?>)?\s+(?:(?:\w+::)*(\w+)(?:<.*?>)?\s+for\s+)?&?(?:'\w+ )?(?:mut )?(\w+)")
TRAIT = re.compile(r"(?:pub(?:\([a-z]+\))? )?trait\s+(\w+)")


def named(edit):
    """What to check, from the narrowest on: the functions by type and name, by name, by file, and the whole crate."""
    found = [named_at(edit.crate, file, old) for file, old, _ in edit.changes]
    levels = [{name for name in names if name} for names in zip(*found)]
    return [*(level for level in levels if level and found[0][1]), set()]


def has_clauses(crate, file, old):
    """Whether a text is of a function with clauses: then its brace is on a line of its own."""
    lines, at = lines_to(crate, file, old)
    return at is not None and lines[at][: -len(lines[at].lstrip())] + "{" in lines[at:]


def lines_to(crate, file, old):
    """The lines of a file as far as a text, and which of them begins the function around it."""
    text = pathlib.Path(TOP, "crates", crate, file).read_text(encoding="utf-8")
    lines = text[: text.find(old) + len(old)].split("\n")
    return lines, next((at for at in reversed(range(len(lines))) if FUNCTION.match(lines[at])), None)


def named_at(crate, file, old):
    """The function around a text by its type and name and by its name alone, and the file's module."""
    lines, at = lines_to(crate, file, old)
    module = re.sub(r"^src/|\.rt$", "", file).replace("/", "::")
    if at is None:
        return None, None, module
    name, owner = FUNCTION.match(lines[at])[1], None
    if lines[at].startswith(" "):
        head = next(line for line in reversed(lines[:at]) if IMPL.match(line) or TRAIT.match(line))
        impl = IMPL.match(head)
        owner = impl[2] + (impl[1] or "") if impl else TRAIT.match(head)[1]
    return (f"{owner}::{name}" if owner else f"{module}::{name}"), name, module


def words_for(crate, uses, is_static):
    """The words of a check of the crate over the libraries that stand."""
    kit = os.path.dirname(os.path.dirname(os.path.realpath(shutil.which("rt"))))
    made = {name: f"{TOP}/crates/{name}/out/rlib" for name in below(crate, uses)}
    for name, folder in made.items():
        if not os.path.isdir(f"{folder}/{name}.rlib"):
            sys.exit(f"{crate}: no library of {name}: run rt ci")
    is_program = os.path.exists(f"{TOP}/crates/{crate}/src/main.rt")
    words = [f"{kit}/bin/rattle", "check", "--crate-name", crate, f"src/{'main' if is_program else 'lib'}.rt"]
    words += library_words(kit, crate, uses, made)
    return words + ["--links", f"{crate}=", "--jobs", "1"] + ["--crate-type", "staticlib"] * is_static


def check_of(edits, names, words):
    """What a check of some functions says, and its status, where these edits are made."""
    with tempfile.TemporaryDirectory() as room:
        for part in ("src", "specs", "proofs"):
            if os.path.isdir(f"{TOP}/crates/{edits[0].crate}/{part}"):
                shutil.copytree(f"{TOP}/crates/{edits[0].crate}/{part}", f"{room}/{part}")
        for edit in edits:
            edit.applied(room)
        only = [word for name in sorted(names) for word in ("--only", name)]
        ran = subprocess.run(
            [*words, *only], cwd=room, stdin=subprocess.DEVNULL, capture_output=True, text=True, errors="replace"
        )
        return ran.stdout + ran.stderr, ran.returncode


def verdict(said, status):
    """The line by which a check says that something isn't proved; None where it says no such thing."""
    found = re.search(r"^(only=\d+ proved=\d+|logic=not-proved.*)$", said, re.M)
    return found and status == 1 and not re.search(r"error\[[\w-]+\]", said) and found[0]


def tried(edit, words):
    """Whether the mutant is refused, and what says so."""
    for names in named(edit):
        said, status = check_of([edit], names, words)
        if found := verdict(said, status):
            return True, f"{' '.join(sorted(names)) or 'the crate'}: {found}"
        if status not in (0, 2):
            return False, f"not tried: {said.strip().splitlines()[-1] if said.strip() else status}"
    return False, "the whole crate is proved with it"


def tried_together(edits, words):
    """The same of each of some, of which no two change one function."""
    if len(edits) > 1:
        said, status = check_of(edits, set().union(*(named(it)[0] for it in edits)), words)
        if verdict(said, status):
            # What calls one that isn't proved isn't proved either.
            lost = re.findall(r"^fn (\S+): (?!proved|no proof: it calls )", said, re.M)
            found = [[it for it in lost if any(it.endswith(f"::{name}") for name in named(edit)[0])] for edit in edits]
            return [(True, " ".join(it)) if it else tried(edit, words) for edit, it in zip(edits, found)]
    return [tried(it, words) for it in edits]


def together(edits):
    """The mutants in groups that are tried together, each of one crate."""
    groups = []
    for edit in edits:
        names = named(edit)[0] if all(has_clauses(edit.crate, file, old) for file, old, _ in edit.changes) else None
        for group, taken in groups:
            if names and taken and group[0].crate == edit.crate and len(group) < 6 and not names & taken:
                group.append(edit)
                taken |= names
                break
        else:
            groups.append(([edit], names))
    return [group for group, _ in groups]


@functools.cache
def state_below(crate):
    """What a crate's mutants rest on: its files, and the definitions of the crates below it."""
    folders = [f"{crate}/{part}" for part in ("src", "specs", "proofs")]
    folders += [f"{it}/specs" for it in below(crate, uses_of())]
    digest = hashlib.sha256()
    for folder in folders:
        for path in sorted(pathlib.Path(TOP, "crates", folder).rglob("*.*t")):
            digest.update(f"{path.relative_to(TOP)}\n".encode() + path.read_bytes())
    return digest.hexdigest()


def state_of(edit):
    """The state in which a mutant is tried."""
    return hashlib.sha256(f"{state_below(edit.crate)}\n{edit.text.strip()}".encode()).hexdigest()[:12]


def seen_refused():
    """For each mutant the state in which it was last seen refused, the oldest first."""
    rows = SEEN.read_text(encoding="utf-8").splitlines() if SEEN.exists() else []
    return dict(row.split() for row in rows)


def note_refused(refused):
    """Puts these last in the list, and drops those that are no more."""
    known = {f"{edit.crate}/{edit.name}" for crate in all_crates() for edit in beside(crate)}
    rows = {**{name: state for name, state in seen_refused().items() if name not in refused}, **refused}
    SEEN.write_text("".join(f"{name} {state}\n" for name, state in rows.items() if name in known), encoding="utf-8")


def is_stale(edit):
    return seen_refused().get(f"{edit.crate}/{edit.name}") != state_of(edit)


def wanted(given):
    """The mutants that are asked for, of the crates or by the names that are given."""
    for word in given.mutants or all_crates():
        crate, _, name = word.partition("/")
        for edit in edits_of(crate) if not (given.stale or given.promises) else beside(crate):
            if name in ("", edit.name) and (not given.promises or edit.name.startswith("promise-")):
                if not given.stale or is_stale(edit):
                    yield edit


def main():
    options = argparse.ArgumentParser(description=__doc__, formatter_class=argparse.RawDescriptionHelpFormatter)
    options.add_argument("--promises", action="store_true")
    options.add_argument("--stale", action="store_true")
    options.add_argument("mutants", nargs="*", metavar="CRATE[/NAME]")
    given = options.parse_args()
    uses = uses_of()
    with open(f"{TOP}/crates.txt", encoding="utf-8") as rows:
        static = {row.split()[0] for row in rows if " staticlib:" in row}
    edits = list(wanted(given))
    words = {crate: words_for(crate, uses, crate in static) for crate in {it.crate for it in edits}}
    refused = {}
    with concurrent.futures.ThreadPoolExecutor(len(os.sched_getaffinity(0))) as pool:
        groups = together(edits)
        for group, answers in zip(groups, pool.map(lambda it: tried_together(it, words[it[0].crate]), groups)):
            for edit, (is_refused, why) in zip(group, answers):
                if is_refused:
                    refused[f"{edit.crate}/{edit.name}"] = state_of(edit)
                print(f"{edit.crate}/{edit.name}: {'refused' if is_refused else 'NOT REFUSED'}: {why}", flush=True)
    note_refused(refused)
    print(f"{len(refused)} mutants refused, {len(edits) - len(refused)} not")
    stale = sum(is_stale(it) for crate in all_crates() for it in beside(crate)) if given.promises else 0
    if stale and "NOT_RUN" in os.environ:  # of the gate, which ends with what it didn't run
        with open(os.environ["NOT_RUN"], "a", encoding="utf-8") as passed_over:
            passed_over.write(f"{stale} stale mutants: tests/gate/mutants.py --stale\n")
    return 1 if len(edits) > len(refused) else 0


if __name__ == "__main__":
    sys.exit(main())
