#!/usr/bin/env python3
"""What no clause of a stream of lexemes can say: that it looks at no byte which it doesn't count as taken.

The clauses count what `Cursor::next_byte` takes. They hold only while the text's bytes lie behind `Cursor` alone: a
type that can't be copied, whose fields its own file sees, and of whose calls one reads. This compares the tokenizer's
sources with that, and names what differs.
"""

import pathlib
import re
import sys

FOLDER = pathlib.Path(__file__).resolve().parents[2] / "crates/wkt_read/src"
CALLS = {
    "new(text: &'a str) -> Self",
    "taken(&self) -> usize",
    "most_left(&self) -> usize",
    "next_byte(&mut self) -> Option<u8>",
    "part(&self, from: usize, to: usize) -> &'a str",
}
# Lexemes lend parts of the text that `Cursor::part` lent them: these were taken.
LENT = {"Token", "Lexeme"}
TYPE = re.compile(r"((?:^#\[[^\n]*\]\n)*)^(?:pub(?:\([a-z]+\))? )?(?:struct|enum) (\w+)[^{;]*\{(.*?)^\}", re.M | re.S)


def faults():
    sources = {path.name: re.sub(r"//[^\n]*", "", path.read_text()) for path in sorted(FOLDER.rglob("*.rt"))}
    cursor = sources["cursor.rt"]
    heads, fields = next((heads, body) for heads, name, body in TYPE.findall(cursor) if name == "Cursor")
    if re.findall(r"derive\((.*?)\)", heads) != ["Drop"]:
        yield "Cursor derives more than Drop"
    if re.search(r"\bpub\b", fields):
        yield "Cursor has a field that other files see"
    for name, source in sources.items():
        if re.search(r"impl(?:<[^{]*>)? [^{]*\bfor (?:\w+::)*Cursor\b", source):
            yield f"{name}: Cursor implements a trait"
    calls = set(re.findall(r"\bfn ([^\n{]*?)(?:\s*\{)?\n", cursor))
    for call in sorted(calls ^ CALLS):
        yield f"cursor.rt: {'a call more' if call in calls else 'missing'}: fn {call}"
    part = cursor[cursor.index("fn part") :]
    if "requires is_taken { to ≤ taken_in self.now }" not in part:
        yield "cursor.rt: part lends bytes that weren't taken"
    for name in ("peekable.rt", "scan.rt", "tokens.rt"):
        for _, type_name, body in TYPE.findall(sources[name]):
            if re.search(r"&('\w+ )?(str|\[u8\])", body) and type_name not in LENT:
                yield f"{name}: {type_name} holds bytes of the text beside Cursor"


def main():
    found = list(faults())
    print("\n".join(found) or "one pass: the text's bytes lie behind Cursor alone")
    return 1 if found else 0


if __name__ == "__main__":
    sys.exit(main())
