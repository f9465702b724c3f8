#!/usr/bin/env python3
"""build.py NAME PROCESSOR FILE: proves and builds the object of the crate NAME for that processor, over what rt ci
left.

Of a library for wasm64 it is the archive, which the linker takes.

With INCREMENTAL=yes the proof begins with what the gate or `rt check` left of the crate, in a copy.
"""
import os
import shutil
import subprocess
import sys
import tempfile

TOP = os.path.dirname(os.path.dirname(os.path.abspath(__file__)))
sys.path.insert(0, f"{TOP}/tests/lib")
import lib_for_c as lib  # noqa: E402 (found by the line above)


def main():
    name, processor, to = sys.argv[1:]
    kit = os.path.dirname(os.path.dirname(os.path.realpath(shutil.which("rt"))))
    uses = lib.uses_of()
    made = {it: f"{TOP}/crates/{it}/out/rlib" for it in lib.below(name, uses)}
    is_library = name in (lib.CRATE,)
    system = "unknown-unknown" if processor == "wasm64" else "unknown-linux-gnu"
    words = ["--crate-name", name, *(["src/lib.rt", "--crate-type", "staticlib"] if is_library else ["src/main.rt"])]
    words += [
        *lib.library_words(kit, name, uses, made),
        "--jobs",
        os.environ.get("JOBS", "2"),
        "--toolchain",
        f"{kit}/toolchain",
    ]
    words += ["--backend", "llvm", "--target", f"{processor}-{system}"]
    kept = f"{TOP}/crates/{name}/out/incremental"
    with tempfile.TemporaryDirectory() as folder:
        if os.environ.get("INCREMENTAL") and os.path.isdir(kept):
            shutil.copytree(kept, f"{folder}/kept", symlinks=True)
            words += ["--incremental", f"{folder}/kept"]
        out = f"{folder}/made"
        status = subprocess.run(
            [f"{kit}/bin/rattle", "build", *words, "-o", out], cwd=f"{TOP}/crates/{name}"
        ).returncode
        if status:
            return status
        if is_library and processor != "wasm64":
            with open(to, "wb") as file:
                return subprocess.run(["ar", "p", out], stdout=file).returncode
        shutil.copyfile(out, to)
    return 0


if __name__ == "__main__":
    sys.exit(main())
