#!/usr/bin/env python3
"""Makes what the package has beside its sources: build.py MODULE PACKAGE. pack.sh calls it, and in a clone
npm install of this folder.

PACKAGE is a folder with src/. It gets wkt.wasm; src/packed.js, the module for `wkt-proved/inline`; and, in cjs/, both
of them and their types for `require`. The same files and the same zlib give the same bytes.
"""
import os
import shutil
import sys

sys.path.insert(0, os.path.dirname(os.path.dirname(os.path.abspath(__file__))) + "/web")
from make import Modules, packed  # noqa: E402 (found by the line above)


def required(package, name):
    """A module and those that it imports as one of CommonJS. It stands as deep in the package as they do."""
    modules = Modules(f"{package}/src", "require('url').pathToFileURL(__filename).href")
    path = f"{package}/src/{name}.js"
    return f"{modules.joined(modules.reached(path))}module.exports = {modules.name(path)};\n"


def main():
    module, package = sys.argv[1], os.path.abspath(sys.argv[2])
    shutil.copyfile(module, f"{package}/wkt.wasm")
    with open(module, "rb") as file:
        text = packed(file.read())
    with open(f"{package}/src/packed.js", "w", encoding="utf-8") as file:
        file.write(f"// wkt.wasm as base64 of its gzip.\nexport const PACKED = '{text}';\n")
    os.makedirs(f"{package}/cjs", exist_ok=True)
    for source, name in (("node", "index"), ("inline", "inline")):
        with open(f"{package}/cjs/{name}.cjs", "w", encoding="utf-8") as file:
            file.write(required(package, source))
    shutil.copyfile(f"{package}/src/index.d.ts", f"{package}/cjs/index.d.cts")


if __name__ == "__main__":
    main()
