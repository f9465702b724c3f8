#!/usr/bin/env python3
"""Writes docs/API.md: each public item as a user names it, with its signature, what it is, and its clauses by name.

    tests/gate/api.py > docs/API.md      (the gate compares the two)

Read from the sources as the formatter lays them out: the paths from `pub use` lines, the items from their files.
"""
import glob
import os
import re

ROOT = os.path.dirname(os.path.dirname(os.path.dirname(os.path.abspath(__file__))))
DOORS = ["wkt", "wkt_lines"]
# What a source calls a type that a caller names otherwise.
NAMED = {
    "wkt_access::Error": "wkt::error::Error",
    "WriteError": "wkt::error::Error",
    "ConvertError": "wkt::geo_types_from_wkt::Error",
}
# Words of std with which a clause may begin, which say nothing of what it states.
OF_STD = {"IfOk", "IfSome", "IfNone", "MatchOption", "MatchResult", "OnOk", "Self"}
ITEM = re.compile(
    r"\s*(pub(\(\w+\))? )?(unsafe )?((fn|struct|enum|trait|const|type|impl|mod|static)\b|ghost \w+[:= ]|macro_rules!)"
)


def lines_of(path):
    with open(path, encoding="utf-8") as source:
        return source.read().split("\n")


def indent_of(line):
    return len(line) - len(line.lstrip())


class Item:
    """A piece of a file: its docs, its head up to its body, and the lines of its body."""

    def __init__(self, docs, head, body):
        self.docs = docs
        self.head = head
        self.body = body

    def sentence(self):
        """The first sentence of its docs."""
        first = []
        for line in self.docs:
            if not line or line.startswith(("#", "```", "-")):
                break
            first.append(line)
        # A link to another item leads nowhere on a page: its name alone.
        text = re.sub(r"\[(`[^`]*`)\](\([^)\s]*\))?", r"\1", " ".join(first))
        end = re.search(r"\.(?= |$)", text)
        return text[: end.end()] if end else text

    def signature(self):
        """Its head on one line, without contracts."""
        text = []
        for line in self.head:
            if re.match(r"\s*(requires|ensures)\b", line):
                break
            text.append(line.strip())
        text = " ".join(text)
        text = re.sub(r"\s+where$", "", re.sub(r",? \)", ")", re.sub(r"\( ", "(", text)))
        text = re.sub(r", where .*$", "", re.sub(r" where .*$", "", text))
        return re.sub(r"\s*[{;]$", "", text).removeprefix("pub ")

    def clauses(self):
        """The names of its clauses; a lone one has none, and is shown by its definition."""
        found = []
        for line in self.head:
            clause = re.match(r"\s*(requires|ensures)\b\s*(\w*)\s*\{\s*([A-Z]\w+)?", line)
            if clause:
                word = "requires " if clause.group(1) == "requires" else ""
                by = f"by `{clause.group(3)}`" if clause.group(3) and clause.group(3) not in OF_STD else "one"
                found.append(word + (f"`{clause.group(2)}`" if clause.group(2) else by))
        return ", ".join(found)


def end_of(lines, start, depth):
    """The last line of the item that begins here, and the line that opens its body, or None where it has none."""
    balance = 0
    for at in range(start, len(lines)):
        line = lines[at].rstrip()
        inside = lines[start].lstrip().startswith("impl")
        if (indent_of(line) == depth or inside) and line.endswith("{"):
            return next(n for n in range(at, len(lines)) if n > at and lines[n] == " " * depth + "}"), at
        balance += sum(line.count(mark) for mark in "([{") - sum(line.count(mark) for mark in ")]}")
        if balance == 0 and (line.endswith(";") or indent_of(line) == depth and line.endswith("}")):
            return at, None
    raise ValueError(lines[start])


def items_in(lines, depth):
    """The items that begin at this depth of indentation."""
    found, docs, at = [], [], 0
    while at < len(lines):
        line = lines[at]
        text = line.strip()
        if indent_of(line) == depth and text.startswith("///"):
            docs.append(text[3:].strip())
        elif indent_of(line) == depth and ITEM.match(line):
            end, opening = end_of(lines, at, depth)
            head = lines[at : (end if opening is None else opening) + 1]
            found.append(Item(docs, head, [] if opening is None else lines[opening + 1 : end]))
            docs, at = [], end
        elif text and indent_of(line) == depth and not text.startswith("#["):
            docs = []
        at += 1
    return found


class Crate:
    """The items of a crate's files by name, with the inherent calls of each type."""

    def __init__(self, name):
        self.items, self.calls = {}, {}
        for path in sorted(glob.glob(os.path.join(ROOT, "crates", name, "src", "**", "*.rt"), recursive=True)):
            self.read(path)

    def read(self, path):
        for item in items_in(lines_of(path), 0):
            public = re.match(r"pub (?:unsafe )?(?:fn|struct|enum|trait|const) (\w+)", item.head[0])
            own = re.match(r"impl(?:<.*?>)? (\w+)(?:<[^{]*>)? \{", " ".join(row.strip() for row in item.head))
            if public:
                self.items[public.group(1)] = item
            elif own:
                self.calls.setdefault(own.group(1), []).extend(
                    call
                    for call in items_in(item.body, 4)
                    if call.head[0].strip().startswith(("pub fn", "pub unsafe fn"))
                )


def uses_of(lines):
    """The `pub use` lines of a module with the modules in it, and the types that are another's under a name of its own,
    as (path of modules, crate or module, name, name here)."""
    path, found, text = [], [], ""
    for line in lines:
        module = re.match(r"\s*pub mod (\w+) \{", line)
        named = re.match(r"\s*pub type (\w+)<\w+> = (\w+)::(\w+)<\w+>;", line)
        if module:
            path.append(module.group(1))
        elif named:
            found.append((tuple(path), named.group(2), named.group(3), named.group(1)))
        elif path and line == " " * (4 * len(path) - 4) + "}":
            path.pop()
        elif text or line.strip().startswith("pub use "):
            text += line.strip() + " "
            if ";" in line:
                where, names = re.match(r"pub use ([\w:]+?)::(\{.*\}|\w+(?: as \w+)?);", text.strip()).groups()
                for name in names.strip("{} ").rstrip(",").split(","):
                    name, _, here = name.strip().partition(" as ")
                    if name:
                        found.append((tuple(path), where, name, here or name))
                text = ""
    return found


def crate_with(crates, name, item):
    """The crate that defines an item: this one, or the one whose item it hands on."""
    if name not in crates:
        crates[name] = Crate(name)
    if item not in crates[name].items:
        for _, where, given, here in uses_of(lines_of(os.path.join(ROOT, "crates", name, "src", "lib.rt"))):
            if here == item and where.startswith("wkt_"):
                return crate_with(crates, where.split("::")[0], given)
    return crates[name]


def named(text):
    """The text with each type as a caller names it."""
    return re.sub(r"[\w:]+", lambda it: NAMED.get(it.group(), it.group()), text)


def line_of(item, level):
    """A line of the page for an item."""
    clauses = item.clauses()
    tail = f" Clauses: {clauses}." if clauses else ""
    sentence = item.sentence()
    return f"{level}- `{named(item.signature())}`" + (f": {sentence}" if sentence else "") + tail


def ghost_of(item):
    """A ghost member by its name and type."""
    return named(" ".join(row.strip() for row in item.head).removeprefix("ghost ").rstrip(";"))


def page_of(name, item, calls):
    """The lines of the page for a public item: a function, a type with its calls, or a trait with its members."""
    if re.match(r"pub (unsafe )?(fn|const)\b", item.head[0]):
        return [line_of(item, "")]
    head = re.sub(r" where .*", "", item.signature())
    # A type may be handed on by a name of its own.
    head = re.sub(r"^(struct|enum|trait) \w+", rf"\1 {name}", head)
    page = [f"- **`{head}`**: {item.sentence()}"]
    if item.head[0].startswith("pub trait"):
        for member in items_in(item.body, 4):
            if member.head[0].strip().startswith("ghost use"):
                continue
            if member.head[0].strip().startswith("ghost"):
                page.append(f"  - ghost `{ghost_of(member)}`" + (f": {member.sentence()}" if member.sentence() else ""))
            else:
                page.append(line_of(member, "  "))
    elif item.head[0].startswith("pub enum"):
        rows = [row.strip().replace("#[from] ", "") for row in item.body if re.match(r"    [A-Z]", row)]
        variants = [re.match(r"\w+(\(.*\))?", row).group() for row in rows]
        variants = [named(variant) for variant in variants]
        page.append("  - variants: " + ", ".join(f"`{variant}`" for variant in variants))
    else:
        fields = [re.match(r"    pub ([\w]+: .*?),?$", row).group(1) for row in item.body if re.match(r"    pub ", row)]
        if fields:
            page.append("  - fields: " + ", ".join(f"`{field}`" for field in fields))
    return page + [line_of(call, "  ") for call in calls]


def main():
    crates = {}
    print("# Public items\n")
    print(
        "Made by `tests/gate/api.py` from the sources; the gate compares. Each item under the path that a caller names"
    )
    print(
        "it by, with the first sentence of its docs and its clauses by name (*one*: a clause without a name; *by*: one"
    )
    print("that this definition states).")
    for door in DOORS:
        base = os.path.join(ROOT, "crates", door, "src")
        sections = {}
        for path, where, name, here in uses_of(lines_of(os.path.join(base, "lib.rt"))):
            crate = door if where.split("::")[0] in ("crate",) or not where.startswith("wkt") else where.split("::")[0]
            found = crate_with(crates, crate, name)
            sections.setdefault("::".join((door,) + path), []).append(
                (here, found.items[name], found.calls.get(name, []))
            )
        # A public module with a file of its own.
        for module in re.findall(r"^pub mod (\w+);", "\n".join(lines_of(os.path.join(base, "lib.rt"))), re.M):
            for item in items_in(lines_of(os.path.join(base, f"{module}.rt")), 0) if module != "laws" else []:
                if item.head[0].startswith("pub fn"):
                    sections.setdefault(f"{door}::{module}", []).append((item.signature(), item, []))
        if door != "wkt":
            for item in (
                items_in(lines_of(os.path.join(base, "laws.rt")), 0)
                if os.path.exists(os.path.join(base, "laws.rt"))
                else []
            ):
                if item.head[0].startswith("pub fn"):
                    sections.setdefault(f"{door}::laws", []).append((item.signature(), item, []))
        for section in sorted(sections):
            print(f"\n## `{section}`")
            for here, item, calls in sorted(sections[section], key=lambda entry: entry[0].lower()):
                print("\n".join(page_of(here, item, calls)))


if __name__ == "__main__":
    main()
