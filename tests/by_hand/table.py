#!/usr/bin/env python3
"""Writes the table of texts that wkt_tables checks: table.py > crates/wkt_tables/stdin.

Each row is a text, a tab, and what reading it over decimals gives: one of the thirteen messages, or the canonical
text. Refused texts are made one for each kind, dimension, place of the grammar and cause that can be met there, alone
and as a collection's first member, once broken off after the cause and once with each parenthesis closed. Accepted
texts are made one for each kind, dimension, spelling and body.

The reader below is written from docs/GRAMMAR.md alone, and shares nothing with the library. It needs Python alone.
"""
import os
import re
import sys
from decimal import Decimal

KINDS = ["POINT", "LINESTRING", "POLYGON", "MULTIPOINT", "MULTILINESTRING", "MULTIPOLYGON", "GEOMETRYCOLLECTION"]
NUMBERS = {"": 2, "Z": 3, "M": 3, "ZM": 4}
AXES = {"": "XY", "Z": "XYZ", "M": "XYM", "ZM": "XYZM"}
# The messages, in the order of their numbers.
with open(os.path.join(os.path.dirname(__file__), "../../docs/names.tsv"), encoding="utf-8") as names:
    MESSAGES = [line.rstrip("\n").split("\t")[3] for line in names if line.startswith("message\t")]


class Refused(Exception):
    """Carries the number of a message."""


class Lexemes:
    def __init__(self, text):
        self.rest = re.findall(r"[(),]|[^(),\s]+", text.split("\0")[0])

    def peek(self):
        return self.rest[0] if self.rest else None

    def take(self):
        return self.rest.pop(0) if self.rest else None


def is_number(lexeme):
    return lexeme is not None and re.match(r"[0-9.+-]", lexeme) is not None


def number(lexeme):
    """The decimal of a number lexeme, which loses one leading plus, or None where it is none."""
    digits = lexeme.removeprefix("+")
    return Decimal(digits) if re.fullmatch(r"[+-]?(\d+\.?\d*|\.\d+)", digits) else None


def is_bad(lexeme):
    return is_number(lexeme) and number(lexeme) is None


def is_word(lexeme):
    return lexeme is not None and lexeme not in "()," and not is_number(lexeme)


def kind_of(word):
    """The kind and the joined dimension (None: none) of a kind word."""
    upper = word.upper() if word.isascii() else ""
    if upper == "LINEARRING":
        return "LINESTRING", None
    for kind in KINDS:
        for dim in ("", "Z", "M", "ZM"):
            if upper == kind + dim:
                return kind, dim or None
    return None


def first_word(lexemes, no_word):
    """The word in the place of a kind word; no_word is the message where there is none."""
    first = lexemes.take()
    if is_bad(first):
        raise Refused(13)
    if not is_word(first):
        raise Refused(no_word)
    return first


def kind_at(lexemes, word):
    if not kind_of(word):
        raise Refused(3)
    return after_kind_word(lexemes, *kind_of(word))


def geometry(lexemes):
    word = first_word(lexemes, 1)
    if not word.isascii():
        raise Refused(2)
    return kind_at(lexemes, word)


def member(lexemes):
    return kind_at(lexemes, first_word(lexemes, 12))


def after_kind_word(lexemes, kind, dim):
    if dim is None:
        dim = ""
        ahead = lexemes.peek()
        if ahead is None or is_bad(ahead):
            raise Refused(5)
        if is_word(ahead) and ahead.upper() in ("Z", "M", "ZM"):
            dim = lexemes.take().upper()
        elif is_word(ahead) and ahead.upper() != "EMPTY":
            raise Refused(4)
    return kind, dim, framed(lexemes, lambda: BODIES[kind](lexemes, dim))


def framed(lexemes, body):
    opening = lexemes.take()
    if is_bad(opening):
        raise Refused(13)
    if is_word(opening) and opening.upper() == "EMPTY":
        return None
    if opening != "(":
        raise Refused(6)
    return closed(lexemes, body)


def closed(lexemes, body):
    """The body, whose error gives way to that of the lexeme in the place of the closing parenthesis."""
    try:
        result, error = body(), None
    except Refused as e:
        result, error = None, e
    closing = lexemes.take()
    if is_bad(closing):
        raise Refused(13)
    if closing != ")":
        raise Refused(7)
    if error:
        raise error
    return result


def coordinate(lexemes, dim):
    result = []
    for axis in AXES[dim]:
        lexeme = lexemes.take()
        if is_bad(lexeme):
            raise Refused(13)
        if not is_number(lexeme):
            raise Refused(8 + "XYZM".index(axis))
        result.append(number(lexeme))
    return result


def listed(lexemes, item):
    result = [item()]
    while lexemes.peek() == ",":
        lexemes.take()
        result.append(item())
    return result


def coordinates(lexemes, dim):
    return listed(lexemes, lambda: coordinate(lexemes, dim))


def rings(lexemes, dim):
    return listed(lexemes, lambda: framed(lexemes, lambda: coordinates(lexemes, dim)))


def points(lexemes, dim):
    return listed(lexemes, lambda: point(lexemes, dim))


def point(lexemes, dim):
    ahead = lexemes.peek()
    if ahead == "(":
        lexemes.take()
        return closed(lexemes, lambda: coordinate(lexemes, dim))
    if is_word(ahead) and ahead.upper() == "EMPTY":
        lexemes.take()
        return None
    return coordinate(lexemes, dim)


BODIES = {
    "POINT": coordinate,
    "LINESTRING": coordinates,
    "POLYGON": rings,
    "MULTIPOINT": points,
    "MULTILINESTRING": rings,
    "MULTIPOLYGON": lambda lexemes, dim: listed(lexemes, lambda: framed(lexemes, lambda: rings(lexemes, dim))),
    "GEOMETRYCOLLECTION": lambda lexemes, dim: listed(lexemes, lambda: member(lexemes)),
}


def number_text(n):
    text = f"{n:f}"
    text = text.rstrip("0").rstrip(".") if "." in text else text
    return "0" if text in ("-0", "") else text


def coordinate_text(c):
    return " ".join(number_text(n) for n in c)


def in_parentheses(items, each):
    return "EMPTY" if items is None else "(" + ",".join(each(it) for it in items) + ")"


def path_text(path):
    return in_parentheses(path, coordinate_text)


def rings_text(all_rings):
    if all_rings is not None and all_rings[0] is None:
        return "EMPTY"
    return in_parentheses(all_rings, path_text)


def canonical(value):
    kind, dim, body = value
    texts = {
        "POINT": lambda: "(" + coordinate_text(body) + ")",
        "LINESTRING": lambda: path_text(body),
        "POLYGON": lambda: rings_text(body),
        "MULTIPOINT": lambda: in_parentheses(body, lambda p: "EMPTY" if p is None else f"({coordinate_text(p)})"),
        "MULTILINESTRING": lambda: in_parentheses(body, path_text),
        "MULTIPOLYGON": lambda: in_parentheses(body, rings_text),
        "GEOMETRYCOLLECTION": lambda: in_parentheses(body, canonical),
    }
    text = "EMPTY" if body is None else texts[kind]()
    head = f"{kind} {dim}" if dim else kind
    return head + (" " if text == "EMPTY" else "") + text


def answer(text):
    try:
        return canonical(geometry(Lexemes(text)))
    except Refused as e:
        return MESSAGES[e.args[0] - 1]


CAUSES = {"bad": "1x", "none": "", "word": "X", "other": "¾", "number": "1", "open": "(", "close": ")", "comma": ","}
NO_OPENING = ["bad", "none", "word", "number", "close", "comma"]
NO_NUMBER = ["bad", "none", "word", "open", "close", "comma"]
NO_CLOSING = ["bad", "none", "word", "number", "open"]
NO_MEMBER = ["bad", "none", "number", "open", "close", "comma", "word", "other"]


def places(kind, dim):
    """Each place in the body of a kind: what stands before it, and the causes that can be met there."""
    ones = ["1"] * NUMBERS[dim]
    whole = " ".join(ones)
    opened = {
        "POINT": "",
        "LINESTRING": "",
        "POLYGON": "(",
        "MULTIPOINT": "",
        "MULTILINESTRING": "(",
        "MULTIPOLYGON": "((",
    }
    if kind == "GEOMETRYCOLLECTION":
        return [("(", NO_MEMBER), ("(POINT EMPTY,", NO_MEMBER), ("(POINT EMPTY", NO_CLOSING)]
    result = [("(" * n, NO_OPENING) for n in range(1, len(opened[kind]) + 1)]
    inside = "(" + opened[kind]
    for n in range(NUMBERS[dim]):
        # a member of a multipoint may begin with a parenthesis
        causes = [it for it in NO_NUMBER if not (kind == "MULTIPOINT" and n == 0 and it == "open")]
        result.append((inside + " ".join(ones[:n]), causes))
    result.append((inside + whole, NO_CLOSING + ["comma"] * (kind == "POINT")))
    for n in range(1, len(inside)):
        result.append((inside + whole + ")" * n, NO_CLOSING))
    if kind == "MULTIPOINT":
        result += [("((" + " ".join(ones[:n]), NO_NUMBER) for n in range(NUMBERS[dim])]
        result += [("((" + whole, NO_CLOSING + ["comma"]), ("((" + whole + ")", NO_CLOSING)]
    return result


def broken(before, causes):
    """Texts that break off after each cause, and those with each parenthesis closed again."""
    for cause in causes:
        gap = "" if not before or before[-1] in "(," or cause == "none" else " "
        text = before + gap + CAUSES[cause]
        yield text
        still_open = before.count("(") - before.count(")")
        if still_open and cause != "none":
            yield text + ")" * still_open


def refused_texts():
    yield from broken("", NO_MEMBER)
    for kind in KINDS:
        for dim in NUMBERS:
            for where in ("", "GEOMETRYCOLLECTION("):
                if dim:
                    yield from broken(f"{where}{kind} {dim}", NO_OPENING)
                    yield from broken(f"{where}{kind}{dim}", NO_OPENING)
                else:
                    yield from broken(where + kind, ["bad", "none", "word", "other", "number", "close", "comma"])
                head = f"{where}{kind} {dim}" if dim else where + kind
                for before, causes in places(kind, dim):
                    yield from broken(head + before, causes)


def bodies(kind, dim):
    """Bodies of a kind: none, one item, several, and items that are empty."""
    a, b, c = (
        " ".join(numbers[: NUMBERS[dim]])
        for numbers in (["1", "-2", "3.50", "04"], ["+5", ".5", "-0", "6."], ["10", "0.000001", "7", "8"])
    )
    yield " empty"
    yield from {
        "POINT": [f"({a})", f" ( {b} ) "],
        "LINESTRING": [f"({a})", f"({a},{b} , {c})"],
        "POLYGON": [f"(({a}, {b}, {c}, {a}))", f"(({a},{b}),EMPTY,({c}))", f"(EMPTY,({a}))", "(EMPTY)"],
        "MULTIPOINT": [f"({a})", f"(({a}),{b})", f"(EMPTY,({a}), empty ,{c})"],
        "MULTILINESTRING": [f"(({a},{b}))", f"(({a}),EMPTY,({b},{c}))"],
        "MULTIPOLYGON": [f"((({a},{b},{c},{a})))", f"((({a}),({b})),EMPTY,(EMPTY,({c})))"],
        "GEOMETRYCOLLECTION": [
            "(POINT(1 2))",
            "(LINESTRING Z(1 2 3,4 5 6), point empty)",
            "(GEOMETRYCOLLECTION(MULTIPOINT(EMPTY),POLYGON EMPTY))",
        ],
    }[kind]


def accepted_texts():
    for kind in KINDS:
        for dim in NUMBERS:
            heads = [f"{kind} {dim}", f"{kind}{dim}".lower(), f"\t{kind.title()}\n{dim}\r"]
            heads += [f"LINEARRING {dim}"] if kind == "LINESTRING" else []
            for head in heads:
                for body in bodies(kind, dim):
                    yield f"{head}{body}".replace("\n", " ").replace("\t", " ")
            for body in bodies(kind, dim):
                yield f"GEOMETRYCOLLECTION({kind} {dim}{body})"
                yield f"{kind} {dim}{body} )x"


def main():
    if sys.argv[1:2] in (["-h"], ["--help"]):
        print(__doc__.strip())
        return 0
    rows, seen = [], set()
    for text in [*refused_texts(), *accepted_texts()]:
        if text not in seen:
            seen.add(text)
            rows.append(f"{text}\t{answer(text)}")
    sys.stdout.write("\n".join(rows) + "\n")
    return 0


if __name__ == "__main__":
    sys.exit(main())
