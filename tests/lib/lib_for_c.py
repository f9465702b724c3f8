#!/usr/bin/env python3
"""Builds crates/wkt_c/out/libwkt_c.a over the libraries that `rt ci` left where it has just proved them.

`rt lib` would prove them all once more: it takes only libraries that a check of its own left, and which later checks
can begin with. Where `rt ci` left none, or what it left doesn't serve, the status isn't 0: then `rt lib` is to be run.

--when-proved ENDED FILE: beside an `rt ci` that is yet to come or runs. It waits until each of those libraries stands
anew, and builds FILE, with what processors are free. It gives up when the file ENDED is there and a library isn't.

What it proves is kept beside the library, in a folder `incremental`, with which a build for another processor can
begin.
"""

import os
import shutil
import subprocess
import sys
import time

TOP = os.path.dirname(os.path.dirname(os.path.dirname(os.path.abspath(__file__))))
CRATE = "wkt_c"


def uses_of():
    """The libraries that each crate uses, as crates.txt has them."""
    uses = {}
    with open(f"{TOP}/crates.txt", encoding="utf-8") as rows:
        for row in rows:
            name, _, libraries = row.partition(":")
            if name.split() and not name.startswith("#"):
                uses[name.split()[0]] = libraries.split()
    return uses


def below(name, uses):
    """The crates of this repository that a crate rests on, each after those that it uses."""
    found = []
    for one in uses[name]:
        if one in uses:
            found += [it for it in [*below(one, uses), one] if it not in found]
    return found


def library_words(kit, crate, uses, made):
    """The words by which a check of the crate finds its libraries: those that were made, and the toolchain's."""
    words = ["--extern", f"std={kit}/rlibs/std.rlib", "-L", f"dependency={kit}/rlibs"]
    for name in uses[crate]:
        words += ["--extern", f"{name}={made.get(name, f'{kit}/rlibs')}/{name}.rlib"]
    for folder in made.values():
        words += ["-L", f"dependency={folder}"]
    return words + ["--antt-project", f"{kit}/rattle/logic/antt-project.json", "--logic-built", f"{kit}/logic_built"]


def await_libraries(libraries, ended):
    """Whether each library was made since this was called: as soon as all were, or when the file `ended` is there."""
    since = time.time()
    while True:
        over = os.path.exists(ended) or not os.path.isdir(os.path.dirname(ended))
        if all(os.path.isdir(it) and os.stat(it).st_ctime >= since for it in libraries):
            return True
        if over:
            return False
        time.sleep(5)


def main():
    ended, to = sys.argv[2:] if sys.argv[1:2] == ["--when-proved"] else (None, f"out/lib{CRATE}.a")
    rt = shutil.which("rt")
    if not rt:
        return 2
    kit = os.path.dirname(os.path.dirname(os.path.realpath(rt)))
    uses = uses_of()
    made = {name: f"{TOP}/crates/{name}/out/rlib" for name in below(CRATE, uses)}
    if ended:
        # Behind the proofs, but not so far that it waits for the last of them: the gate's last steps need it.
        os.nice(5)
        if not await_libraries([f"{it}/{name}.rlib" for name, it in made.items()], ended):
            return 2
    # A stamp beside a library says that a check of rt's own left it: rt lib takes those.
    if not all(os.path.isdir(f"{it}/{name}.rlib") and not os.path.exists(f"{it}/stamp") for name, it in made.items()):
        return 2
    words = ["--crate-name", CRATE, "src/lib.rt", "--crate-type", "staticlib", *library_words(kit, CRATE, uses, made)]
    words += [
        "--jobs",
        str(min(2 if ended else 4, len(os.sched_getaffinity(0)))),
        "--toolchain",
        f"{kit}/toolchain",
        "--backend",
        "llvm",
        "--incremental",
        os.path.join(os.path.dirname(to), "incremental"),
    ]
    how = {"cwd": f"{TOP}/crates/{CRATE}", "stdout": subprocess.DEVNULL}
    return subprocess.run([f"{kit}/bin/rattle", "build", *words, "-o", to], **how).returncode


if __name__ == "__main__":
    sys.exit(main())
