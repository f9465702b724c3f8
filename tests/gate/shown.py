#!/usr/bin/env python3
"""Whether each interface shows the same characters of a stranger's text raw: all but those of Unicode's properties, as
Perl has them.

The command, Rust, JavaScript and C have lists of their own, which are read in their sources; Python has its own notion
of what is printable, so its function is called, and may escape more.
"""

import importlib
import re
import subprocess
import sys
import types
from pathlib import Path

TOP = Path(__file__).resolve().parent.parent.parent
PROPERTIES = r"\p{Cc}\p{White_Space}\p{Default_Ignorable_Code_Point}\x{fff9}-\x{fffb}"
SURROGATES = set(range(0xD800, 0xE000))
RUST = r"'(?:\\x|\\u\{|\\)([0-9a-f]+)\}?'(?:\.\.='(?:\\x|\\u\{)([0-9a-f]+)\}?')?"
PAIR = r"[\[{](?:0x)?([0-9a-f]+), (?:0x)?([0-9a-f]+)[\]}]"
LISTS = [
    ("crates/wkt_command/src/shown.rt", "fn is_plain", RUST),
    ("rust/src/excerpt.rs", "fn is_plain", RUST),
    ("javascript/src/printable.js", "const HIDDEN", PAIR),
    ("postgres/printable.h", "others[][2]", PAIR),
]


def by_perl():
    """The characters that nobody may see raw, but for the tab and the space."""
    program = f"no warnings; for (0..0x10ffff) {{ print qq($_\\n) if chr =~ /[{PROPERTIES}]/ }}"
    said = subprocess.run(["perl", "-e", program], check=True, capture_output=True, text=True).stdout
    return set(map(int, said.split())) - {0x09, 0x20}


def listed(name, begin, form):
    """The characters of a list in a source, whose numbers are hexadecimal."""
    source = (TOP / name).read_text(encoding="utf-8")
    part = re.split(r"\n    [})]\n|;\n", source[source.index(begin) :])[0]
    found = set()
    for match in re.finditer(form, part, re.IGNORECASE):
        found.update(range(int(match[1], 16), int(match[2] or match[1], 16) + 1))
    return found


def by_python():
    """The characters that the Python package escapes."""
    package = types.ModuleType("wkt")
    package.__path__ = [str(TOP / "python/wkt")]
    sys.modules.update({"wkt": package, "wkt._library": types.ModuleType("wkt._library")})
    errors = importlib.import_module("wkt._errors")
    return {code for code in range(0x110000) if errors.printable(chr(code), "\t") != chr(code)}


def some(codes):
    """The first of them, as U+200B."""
    return " ".join(f"U+{code:04X}" for code in sorted(codes)[:20])


def main():
    """Compares each with Perl's; the status."""
    wanted = by_perl()
    failed = 0
    found = [(name, listed(name, begin, form)) for name, begin, form in LISTS]
    for name, codes in [*found, ("python/wkt/_errors.py", by_python())]:
        raw, escaped = wanted - codes, codes - wanted - SURROGATES - {0x09}
        if raw or (escaped and "python" not in name):
            failed += 1
            print(f"shown: {name}: raw {some(raw)}; escaped {some(escaped)}")
    print(f"shown: {len(wanted)} characters are escaped, in {len(found) + 1} lists, {failed} wrong")
    return failed > 0


if __name__ == "__main__":
    sys.exit(main())
