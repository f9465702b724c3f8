#!/usr/bin/env python3
"""Whether each place that says the version says that of include/wkt.h, and each that says who publishes this what
packaging/addresses says; the status is 1 where one doesn't.

Between releases the version is 1.0.0-dev, and CHANGELOG.md says Unreleased. What is built says its commit too
(dist/version.sh).

version.py --write VERSION: writes both to each of them. The extension of PostgreSQL has the first two numbers; its
script wkt--VERSION.sql is written by hand, as a new version of it needs one.
version.py --placeholders: the lines of packaging/addresses that nobody has filled in, and those of pages that say so;
the status is 1 where there are any.
"""
import glob
import os
import re
import sys

TOP = os.path.dirname(os.path.dirname(os.path.dirname(os.path.abspath(__file__))))
HEADER = "include/wkt.h"
ADDRESSES = "packaging/addresses"
# In which forms the version is said: as the header does, as Python orders versions, the number alone, its beginning.
FORMS = {
    "VERSION": (r"\d+\.\d+\.\d+(?:-dev)?", lambda version: version),
    "PYTHON": (r"\d+\.\d+\.\d+(?:\.dev0)?", lambda version: version.replace("-dev", ".dev0")),
    "NUMBER": (r"\d+\.\d+\.\d+", lambda version: version.split("-")[0]),
    "BEGINNING": (r"\d+\.\d+", lambda version: ".".join(version.split(".")[:2])),
}
# Where it stands, in which form, and the text around it. The proved programs and the pages have the number.
PLACES = [
    (HEADER, "VERSION", r'^#define WKT_VERSION "(%s)"$'),
    ("crates/wkt_options/src/usage.rt", "NUMBER", r'VERSION: &str = "wkt (%s)\\n"'),
    ("tests/data/command/options.txt", "NUMBER", r"^> wkt (%s)$"),
    ("python/wkt/_version.py", "PYTHON", r'^__version__ = "(%s)"$'),
    ("javascript/package.json", "VERSION", r'^  "version": "(%s)",$'),
    ("rust/Cargo.toml", "VERSION", r'^version = "(%s)"$'),
    ("postgres/META.json", "VERSION", r'^    "version": "(%s)",$'),
    ("postgres/META.json", "VERSION", r'"wkt": {[^}]*"version": "(%s)"'),
    ("postgres/META.json", "VERSION", r'"wkt_postgis": {[^}]*"version": "(%s)"'),
    ("postgres/wkt.control", "BEGINNING", r"^default_version = '(%s)'$"),
    ("postgres/Makefile", "BEGINNING", r"^DATA = .*\bwkt--(%s)\.sql\b"),
]
# Where a line of ADDRESSES stands.
SAID = [
    ("README.md", "clone", r"\bgit clone (\S+) wkt\b"),
    ("rust/Cargo.toml", "home", r'^homepage = "(.*)"$'),
    ("rust/Cargo.toml", "home", r'^repository = "(.*)"$'),
    ("packaging/release/debian/control", "maintainer", r"^Maintainer: (.*)$"),
    ("postgres/META.json", "maintainer", r'^    "maintainer": "(.*)",$'),
    ("SECURITY.md", "security", r"^- Contact: (.*)\.$"),
]
PLACEHOLDER = r"\bADDRESS\b|\bwkt\.example\b|@example\b|not published yet|hoever publishes this"


def text_of(path):
    with open(os.path.join(TOP, path), encoding="utf-8") as file:
        return file.read()


def addresses():
    """The lines of ADDRESSES, by their names."""
    return dict(re.findall(r"^(\w+): (.*)$", text_of(ADDRESSES), re.M))


def places(version):
    """Each place: its file, the pattern whose group it is, and what it should say."""
    pages = sorted(glob.glob(f"{TOP}/packaging/release/man/*.[13]"))
    pages = [page for page in pages if not text_of(page).startswith(".so ")]
    pages = [(os.path.relpath(page, TOP), "NUMBER", r'^\.TH .* "wkt (%s)" ') for page in pages]
    for path, form, pattern in PLACES + pages:
        yield path, pattern % FORMS[form][0], FORMS[form][1](version)
    said = addresses()
    for path, name, pattern in SAID:
        yield path, pattern, said[name]


def wrong(version):
    for path, pattern, wanted in places(version):
        found = re.search(pattern, text_of(path), re.M)
        if not found:
            yield f"{path}: what should stand there doesn't: {pattern}"
        elif found[1] != wanted:
            yield f"{path}: {found[1]}, not {wanted}"
    number = FORMS["NUMBER"][1](version)
    day = "Unreleased" if version != number else r"\d{4}-\d\d-\d\d"
    if not re.search(rf"^## \[{re.escape(number)}\] - {day}$", text_of("CHANGELOG.md"), re.M):
        yield f"CHANGELOG.md: no part [{number}] that is Unreleased where the version ends in -dev, and else has a date"
    script = f"postgres/wkt--{FORMS['BEGINNING'][1](version)}.sql"
    if not os.path.exists(f"{TOP}/{script}"):
        yield f"{script}: there is no such file"


def write(version):
    for path, pattern, wanted in places(version):
        text = text_of(path)
        begin, end = re.search(pattern, text, re.M).span(1)
        with open(os.path.join(TOP, path), "w", encoding="utf-8") as file:
            file.write(text[:begin] + wanted + text[end:])


def placeholders():
    lines = [(ADDRESSES, f"{name}: {said}") for name, said in addresses().items()]
    lines += [(page, line) for page in ("README.md", "SECURITY.md") for line in text_of(page).splitlines()]
    left = [f"{path}: {line}" for path, line in lines if re.search(PLACEHOLDER, line)]
    print("\n".join(left) or f"{ADDRESSES}: filled in")
    return 1 if left else 0


def main():
    if sys.argv[1:] == ["--placeholders"]:
        return placeholders()
    if sys.argv[1:2] == ["--write"]:
        write(sys.argv[2])
    version = re.search(PLACES[0][2] % FORMS[PLACES[0][1]][0], text_of(HEADER), re.M)[1]
    found = list(wrong(version))
    count = len(list(places(version)))
    said = f"version: {version}, and addresses, in each of {count} places, and in CHANGELOG.md"
    print("\n".join(found) if found else said)
    return 1 if found else 0


if __name__ == "__main__":
    sys.exit(main())
