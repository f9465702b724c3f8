#!/usr/bin/env python3
"""Keeps one list of names: the messages, statuses, kinds, dimensions, expectations and hints of docs/names.tsv.

names.py: whether each table is what the list says; if not, it is named and the status is 1. A file that lacks a table
that it should have is named too. At the end it exchanges two names in each of the files, and wants to see that refused.
names.py --write: makes the tables of the other languages anew, and that of docs/GRAMMAR.md.

A table stands between a line with `names.py: FORM` and a line with `names.py: end`, in any file of TABLES. The Rattle
sources are written by hand, since they are proved, and only compared.
"""
import os
import re
import sys

TOP = os.path.dirname(os.path.dirname(os.path.dirname(os.path.abspath(__file__))))
LIST = "docs/names.tsv"
# Where the expectations and the hints have numbers.
NUMBERED = "crates/wkt_calls/specs/Explained.antt"
HINTS = "crates/wkt_explain/src/hint.rt"
CAUSES = "crates/wkt_command/src/words.rt"
# Which file has a table, and in which form.
TABLES = {
    "include/wkt.h": "c",
    "python/wkt/_names.py": "python",
    "javascript/src/names.js": "javascript",
    "javascript/src/index.d.ts": "types",
    "rust/src/names.rs": "rust",
    "docs/GRAMMAR.md": "page",
}


class Row:
    def __init__(self, line):
        group, number, name, *more = line.split("\t")
        self.group, self.number, self.name = group, int(number), name
        self.text = more[0] if more else ""
        self.constant = more[1] if len(more) > 1 else None


def rows_of(text):
    """The rows of the list by group, each in the order of its numbers."""
    groups = {}
    for line in text.splitlines():
        if line and not line.startswith("#"):
            row = Row(line)
            groups.setdefault(row.group, []).append(row)
    for group, rows in groups.items():
        for part in ("number", "name"):
            seen = [getattr(row, part) for row in rows]
            if len(set(seen)) != len(seen):
                sys.exit(f"{LIST}: two rows of {group} have one {part}")
        rows.sort(key=lambda row: row.number)
    return groups


def quoted(text):
    return '"' + text.replace("\\", "\\\\").replace('"', '\\"') + '"'


def at_numbers(rows):
    """The texts at their numbers, from 0 on; a number that isn't there has an empty text."""
    texts = {row.number: row.text for row in rows}
    return [texts.get(number, "") for number in range(max(texts) + 1)]


def capitals(name):
    """A name such as NonAscii as NON_ASCII."""
    return re.sub(r"(?<=[a-z])(?=[A-Z])", "_", name).upper()


def wrapped(head, items, tail, sep, indent, width):
    """Items on as many lines as they need."""
    lines, line = [], head
    for n, item in enumerate(items):
        item += "," if n + 1 < len(items) else ""
        if len(line) + 1 + len(item) + len(sep) > width:
            lines.append(line + sep)
            line = indent + item
        else:
            line += " " + item
    return lines + [line + tail]


def words(groups, group):
    return [quoted(row.text) for row in groups[group]]


def names(groups, group):
    return [quoted(row.name) for row in groups[group]]


def status_texts(groups):
    return at_numbers(groups["message"] + [row for row in groups["status"] if row.number])


def lists(groups):
    """The lists of texts that every language has: name, what it is, items."""
    return [
        ("MESSAGES", "The words of a status, at its number.", [quoted(it) for it in status_texts(groups)]),
        (
            "HEADER_MESSAGES",
            "The words of the statuses 1 to 3 of wkt_infer.",
            [quoted(it) for it in at_numbers(groups["header"])],
        ),
        ("KINDS", "The kinds, at their numbers.", names(groups, "kind")),
        ("KIND_WORDS", "Their kind words.", words(groups, "kind")),
        ("DIMENSIONS", "The dimensions, at their numbers.", names(groups, "dimension")),
        ("DIMENSION_WORDS", "What stands after a kind word for each.", words(groups, "dimension")),
        ("EXPECTED", "What could stand where a text is refused, at its number.", words(groups, "expected")),
        (
            "HINTS",
            "Why a text is refused, at the number of the hint; %u is the number of places.",
            words(groups, "hint"),
        ),
    ]


def stable_words(groups):
    """The expectations and hints as one word each, for tables."""
    return [
        (
            f"{group.upper()}_WORDS",
            f"The same as one stable word, for tables: {group.upper()}.",
            [quoted(capitals(row.name).lower()) for row in groups[group]],
        )
        for group in ("expected", "hint")
    ]


def c_enum(what, rows):
    lines = [f"/* {what} */", "enum {"]
    for n, (name, number, text) in enumerate(rows):
        comma = "," if n + 1 < len(rows) else ""
        lines.append(f"    WKT_{name} = {number}{comma}" + (f" /* {text} */" if text else ""))
    return lines + ["};"]


def statuses_of(groups):
    """The statuses with their words, and among them that of a number."""
    bad = next(row for row in groups["message"] if row.name == "BadNumber")
    statuses = [(row.name, row.number, row.text) for row in groups["status"]]
    statuses.insert(
        1, ("BAD_NUMBER", bad.number, "of the refusals, 1 to 14: a number has too many decimals, or is too large")
    )
    return statuses


def c_table(groups):
    lines = c_enum(
        "Statuses. 1 to 14: the text begins with no geometry, and WKT_MESSAGES says why.", statuses_of(groups)
    )
    lines += c_enum("Kinds.", [(row.text, row.number, "") for row in groups["kind"]])
    lines += c_enum("Dimensions.", [(row.name, row.number, "") for row in groups["dimension"]])
    expected = [("EXPECTED_" + capitals(row.name), row.number, row.text) for row in groups["expected"]]
    lines += c_enum("What could stand where a text is refused.", expected)
    hints = [("HINT_" + capitals(row.name), row.number, row.text) for row in groups["hint"]]
    lines += c_enum("Why a text is refused, as far as that is known.", hints)
    for name, what, items in lists(groups) + stable_words(groups):
        lines += [f"/* {what} */"]
        lines += wrapped(f"#define WKT_{name} {{", items, " }", " \\", "    ", 118)
    return lines


def python_table(groups):
    lines = []
    for name, what, items in lists(groups) + stable_words(groups):
        lines += [f"# {what}", f"{name} = ("] + [f"    {item}," for item in items] + [")"]
    lines.append("# Statuses.")
    return lines + [f"{row.name} = {row.number}" for row in groups["status"]]


def rust_table(groups):
    lines = []
    for name, what, items in lists(groups):
        head, row = f"pub const {name}: [&str; {len(items)}] = [", ", ".join(items)
        # As rustfmt lays it out.
        lines += [f"/// {what}"] + (
            [head + row + "];"] if len(row) <= 58 else [head, *(f"    {it}," for it in items), "];"]
        )
    for row in groups["status"]:
        lines += [f"/// {row.text}.", f"pub const {row.name}: u32 = {row.number};"]
    return lines


def javascript_table(groups):
    lines = []
    for name, what, items in lists(groups) + stable_words(groups):
        lines += (
            [f"/** {what} */", f"export const {name} = Object.freeze(["] + [f"  {item}," for item in items] + ["]);"]
        )
    lines += ["/** Why a text has no answer. */", "export const STATUS = Object.freeze({"]
    return lines + [f"  {name}: {number}, // {text}" for name, number, text in statuses_of(groups)] + ["});"]


def types_table(groups):
    """The types of what the table for JavaScript has."""
    kinds = names(groups, "kind")
    lines = ["/** A kind that has flat arrays. */", f"export type FlatKind = {' | '.join(kinds[:-1])};"]
    lines += [
        "export type Kind = FlatKind | " + kinds[-1] + ";",
        f"export type Dimension = {' | '.join(names(groups, 'dimension'))};",
    ]
    lines += ["/** Why a text has no answer, as include/wkt.h has it. 1 to 14: the text begins with no geometry. */"]
    lines += ["export declare const STATUS: {"]
    return (
        lines
        + [f"  /** {text} */\n  readonly {name}: {number};" for name, number, text in statuses_of(groups)]
        + ["};"]
    )


def page_table(groups):
    return ["", "| | message |", "|---|---|", *(f"| {row.number} | `{row.text}` |" for row in groups["message"]), ""]


FORMS = {
    "c": c_table,
    "python": python_table,
    "javascript": javascript_table,
    "types": types_table,
    "rust": rust_table,
    "page": page_table,
}


def made(path, form, text, groups):
    """The file with its table made anew, or None where it has no table of this form."""
    lines = text.splitlines(keepends=True)
    begins = [n for n, line in enumerate(lines) if re.search(rf"names\.py: {form}\b", line)]
    ends = [n for n, line in enumerate(lines) if re.search(r"names\.py: end\b", line)]
    if len(begins) != 1 or len(ends) != 1 or ends[0] < begins[0]:
        return None
    table = [line + "\n" for line in FORMS[form](groups)]
    return "".join(lines[: begins[0] + 1] + table + lines[ends[0] :])


def pairs(pattern, text):
    return re.findall(pattern, text, re.M)


def by_hand(groups):
    """What is written by hand: file, what it is, how it is found, and what it has to be."""
    messages, kinds, dimensions = groups["message"], groups["kind"], groups["dimension"]
    number = [(row.name, str(row.number)) for row in messages]
    text = [(row.name, row.text) for row in messages]
    bad = [row.text for row in messages if row.name == "BadNumber"]
    expected = [(row.name, row.text) for row in groups["expected"]]
    expected_numbers = [(row.name, str(row.number)) for row in groups["expected"]]
    hints = [(row.name, row.text) for row in groups["hint"] if row.text and "%u" not in row.text]
    with_places = [(row.name, row.text.replace("%u", "{places}")) for row in groups["hint"] if "%u" in row.text]
    expected_causes = [(row.name, capitals(row.name).lower()) for row in groups["expected"]]
    hint_causes = [(row.name, capitals(row.name).lower()) for row in groups["hint"] if row.number]
    hint_numbers = [(row.name, str(row.number)) for row in groups["hint"] if row.number]
    constants = [(row.constant, str(row.number)) for row in groups["status"] if row.constant]
    source, spec = "crates/wkt_read/src/messages.rt", "crates/wkt_read/specs/Messages.antt"
    lists = "crates/wkt_fill/specs/EventLists.antt"
    return [
        (source, "texts", r'Message::(\w+) => "(.*)",$', text),
        (source, "numbers", r"Message::(\w+) => (\d+),$", number),
        (
            source,
            "messages of numbers",
            r"^ +(\d+|_) => Message::(\w+),$",
            [(n, name) for name, n in number[:-1]] + [("_", number[-1][0])],
        ),
        (spec, "texts", r'^message_text (\w+) = codes "(.*)"$', [it for it in text if it[0] != "BadNumber"]),
        (spec, "numbers", r"^message_number (\w+) = (\d+)$", number),
        ("crates/wkt_read/specs/Items.antt", "the message of a number", r'^bad_number = codes "(.*)"$', bad),
        ("crates/wkt_read/specs/Words.antt", "words", r'^words (\w+) = codes "(.*)"$', expected),
        ("crates/wkt_read/src/expected.rt", "words", r'Expected::(\w+) => "(.*)",$', expected),
        (lists, "kinds", r"^kind_index kind\.(\w+) = (\d+)$", [(row.name, str(row.number)) for row in kinds]),
        (
            lists,
            "dimensions",
            r"^dimension_index dim\.(\w+) = (\d+)$",
            [(row.name, str(row.number)) for row in dimensions],
        ),
        ("crates/wkt_calls/src/status.rt", "statuses", r"^pub const (\w+): u32 = (\d+);$", constants),
        (NUMBERED, "expectations", r"^expected_number expected\.(\w+) = (\d+)$", expected_numbers),
        (HINTS, "hints", r'Hint::(\w+) =>\s+"(.*)",$', hints),
        (HINTS, "hints with a number", r'Hint::(\w+)\(places\) => return write!\(f, "(.*)"\),$', with_places),
        (CAUSES, "expectations", r'Expected::(\w+) => "expected_(\w+)",$', expected_causes),
        (CAUSES, "hints", r'Hint::(\w+)(?:\(_\))? => "(\w+)",$', hint_causes),
        (NUMBERED, "hints", r"^hint_number \(Some \(?hint\.(\w+)(?: most\))?\) = (\d+)$", hint_numbers),
    ]


def differences(read):
    """What isn't as the list says; `read` gives the text of a file, or None where there is none."""
    groups = rows_of(read(LIST))
    found = []
    for path, form in TABLES.items():
        text = read(path)
        again = None if text is None else made(path, form, text, groups)
        if again is None:
            found.append(f"{path}: it lacks the table `names.py: {form}`")
        elif again != text:
            found.append(f"{path}: its table isn't that of {LIST} (tests/gate/names.py --write makes it)")
    for path, what, pattern, wanted in by_hand(groups):
        text = read(path)
        if text is None:
            found += [] if path == NUMBERED else [f"{path}: there is no such file"]
            continue
        has = pairs(pattern, text)
        for row in wanted:
            if row not in has:
                found.append(f"{path}: {what}: it lacks {row}")
        for row in has:
            if row not in wanted:
                found.append(f"{path}: {what}: {row} isn't in {LIST}")
    return found


def read_file(path):
    try:
        with open(f"{TOP}/{path}", encoding="utf-8") as file:
            return file.read()
    except FileNotFoundError:
        return None


def swapped(text, first, second):
    """The text with two spans of it in each other's place."""
    (a, b), (c, d) = sorted((first, second))
    return text[:a] + text[c:d] + text[b:c] + text[a:b] + text[d:]


def spans(path, text, groups):
    """Pairs of spans of a file, of which each names what the list has for another row."""
    begin, end = 0, len(text)
    if path in TABLES:
        begin = text.index(f"names.py: {TABLES[path]}")
        end = text.index("names.py: end")
    for rows in groups.values() if path in TABLES else []:
        places = [(text.find(row.text, begin, end), len(row.text)) for row in rows if len(row.text) > 3]
        places = sorted({(at, at + length) for at, length in places if at >= 0})
        yield from (it for it in zip(places, places[1:]) if it[0][1] <= it[1][0])
    for file, _, pattern, _ in by_hand(groups):
        if file == path:
            places = [found.span(found.lastindex) for found in re.finditer(pattern, text, re.M)]
            yield from zip(places, places[1:])


def not_refused():
    """The files in which two names can be exchanged without a difference."""
    groups = rows_of(read_file(LIST))
    found = []
    for path in [*TABLES, *dict.fromkeys(it[0] for it in by_hand(groups))]:
        text = read_file(path) or ""
        for first, second in spans(path, text, groups):
            other = swapped(text, first, second)
            if not differences(lambda asked: other if asked == path else read_file(asked)):
                found.append(f"{path}: `{text[slice(*first)]}` and `{text[slice(*second)]}` can be exchanged")
    return found


def write():
    groups = rows_of(read_file(LIST))
    for path, form in TABLES.items():
        again = made(path, form, read_file(path) or "", groups)
        if again is None:
            sys.exit(f"{path}: it lacks the lines `names.py: {form}` and `names.py: end`")
        with open(f"{TOP}/{path}", "w", encoding="utf-8") as file:
            file.write(again)


def main():
    if sys.argv[1:] == ["--write"]:
        write()
        return 0
    found = differences(read_file) or not_refused()
    for line in found:
        print(line)
    if not found:
        print("names: every table is that of", LIST)
    return 1 if found else 0


if __name__ == "__main__":
    sys.exit(main())
