#!/usr/bin/env python3
"""Makes the page: one file with the module in it, which works from any folder, and without a server.

    web/make.py [--check] [--module FILE] [--javascript FOLDER] [PAGE]

FILE is dist/wasm/wkt.wasm, FOLDER javascript/src, and PAGE dist/web/index.html where they are left out. The same files
and the same zlib give the same bytes. --check makes nothing: it says whether PAGE is the page of these files, by any
zlib.

The modules of JavaScript are joined: each becomes a function that is called once and returns what the module exports.
So only these forms are understood, each at the beginning of a line: `import { a, b as c } from './x.js';`,
`export { a, b as c };`, the same with `from './x.js'`, and `export` before function, async function, class, const and
let.
"""
import argparse
import base64
import gzip
import hashlib
import os
import re
import sys

HERE = os.path.dirname(os.path.abspath(__file__))
TOP = os.path.dirname(HERE)
IMPORT = re.compile(r"^import\s*\{([^}]*)\}\s*from\s*'([^']*)';[^\n]*\n", re.M)
FORWARD = re.compile(r"^export\s*\{([^}]*)\}\s*from\s*'([^']*)';[^\n]*\n", re.M)
EXPORT = re.compile(r"^export\s*\{([^}]*)\};[^\n]*\n", re.M)
DECLARED = re.compile(r"^export (?=(?:async )?(?:function\*?|class|const|let) ([\w$]+))", re.M)


def text_of(path):
    with open(path, encoding="utf-8", newline="") as file:
        text = file.read()
    assert "\r" not in text and "</script" not in text and "<!--" not in text, path
    return text


def pairs(names):
    """`a, b as c` as pairs: (a, a), (b, c)."""
    words = (name.split() for name in re.sub(r"//[^\n]*", "", names).split(","))
    return [(name[0], name[-1]) for name in words if name]


class Modules:
    """Modules of JavaScript, by their paths, in an order in which each comes after those that it imports."""

    def __init__(self, package, here="location.href"):
        """`here` is the address of what they are joined to, in JavaScript."""
        self.package = package
        self.here = here
        self.texts = {}

    def path(self, importer, name):
        """The path of an imported module. The package may stand in another folder."""
        path = os.path.normpath(os.path.join(os.path.dirname(importer), name))
        return (
            os.path.join(self.package, os.path.relpath(path, TOP + "/javascript/src"))
            if path.startswith(TOP + "/javascript/src/")
            else path
        )

    def name(self, path):
        """What the module is called in the page."""
        short = (
            os.path.relpath(path, self.package)
            if path.startswith(self.package + "/")
            else "page/" + os.path.relpath(path, HERE)
        )
        return re.sub(r"\W", "_", short.removesuffix(".js")) + "_js"

    def load(self, path, wanted):
        """Reads a module and those that it imports, and adds their paths to `wanted`."""
        if path in wanted:
            return
        text = text_of(path)
        for _, other in IMPORT.findall(text) + FORWARD.findall(text):
            self.load(self.path(path, other), wanted)
        wanted.append(path)
        self.texts[path] = text

    def reached(self, path):
        wanted = []
        self.load(path, wanted)
        return wanted

    def joined(self, paths):
        return "'use strict';\n" + "".join(self.called(path) for path in paths)

    def called(self, path):
        """A module as a function that is called."""
        exported = []

        def imported(match):
            names = ", ".join(a if a == b else f"{a}: {b}" for a, b in pairs(match[1]))
            return f"const {{ {names} }} = {self.name(self.path(path, match[2]))};\n"

        def forwarded(match):
            exported.extend(f"{b}: {self.name(self.path(path, match[2]))}.{a}" for a, b in pairs(match[1]))
            return ""

        def listed(match):
            exported.extend(a if a == b else f"{b}: {a}" for a, b in pairs(match[1]))
            return ""

        def declared(match):
            exported.append(match[1])
            return ""

        text = FORWARD.sub(forwarded, IMPORT.sub(imported, self.texts[path]))
        text = DECLARED.sub(declared, EXPORT.sub(listed, text))
        text = text.replace("import.meta.url", self.here)
        left = re.search(r"^(import|export)\b.*", text, re.M)
        assert not left, f"{path}: {left[0]}: a form that isn't understood"
        return f"const {self.name(path)} = (() => {{\n{text}return {{ {', '.join(exported)} }};\n}})();\n"


def sum_of(text):
    return f"'sha256-{base64.b64encode(hashlib.sha256(text.encode()).digest()).decode()}'"


def packed(module):
    """A module as it stands in the page: base64 of its gzip."""
    return base64.b64encode(gzip.compress(module, 9, mtime=0)).decode()


def packed_in(page):
    """The same of a page that is made."""
    found = re.search(r'<script id="module"[^>]*>([^<]*)<', page)
    return found[1] if found else ""


def made(module, package):
    """The page, of a packed module and the folder of the package."""
    modules = Modules(package)
    main, worker = modules.reached(HERE + "/main.js"), modules.reached(HERE + "/worker.js")
    both = [path for path in main if path in worker]
    parts = {
        "first": text_of(HERE + "/first.js"),
        "style": text_of(HERE + "/page.css"),
        "core": modules.joined(both),
        "main": modules.joined([path for path in main if path not in both]),
        "worker": modules.joined([path for path in worker if path not in both]),
        "module": module,
    }
    scripts = " ".join(sum_of(parts[name]) for name in ("first", "core", "main"))
    parts["policy"] = (
        f"default-src 'none'; script-src {scripts} 'wasm-unsafe-eval'; worker-src blob:; "
        f"style-src {sum_of(parts['style'])}; "
        "img-src data:; connect-src 'none'; base-uri 'none'; form-action 'none'"
    )
    with open(HERE + "/page.html", encoding="utf-8") as file:
        page = file.read()
    assert sorted(re.findall(r"\{(\w+)\}", page)) == sorted(parts)
    return re.sub(r"\{(\w+)\}", lambda place: parts[place[1]], page)


def main():
    parser = argparse.ArgumentParser(description=__doc__.split("\n")[0])
    parser.add_argument("--module", default=TOP + "/dist/wasm/wkt.wasm")
    parser.add_argument("--javascript", default=TOP + "/javascript/src")
    parser.add_argument("page", nargs="?", default=TOP + "/dist/web/index.html")
    parser.add_argument("--check", action="store_true")
    asked = parser.parse_args()
    package = os.path.abspath(asked.javascript)
    with open(asked.module, "rb") as file:
        module = file.read()
    if asked.check:
        with open(asked.page, encoding="utf-8", newline="") as file:
            page = file.read()
        there = packed_in(page)
        if gzip.decompress(base64.b64decode(there)) != module:
            sys.exit(f"{asked.page} has another module than {asked.module}")
        if made(there, package) != page:
            sys.exit(f"{asked.page} isn't the page of these sources: web/make.py makes it")
        return
    os.makedirs(os.path.dirname(os.path.abspath(asked.page)), exist_ok=True)
    with open(asked.page, "w", encoding="utf-8", newline="") as file:
        file.write(made(packed(module), package))


if __name__ == "__main__":
    main()
