"""Generated texts, and a reader of them that shares nothing with the library.

The reader follows docs/GRAMMAR.md, with Python's Decimal for the numbers. `expected` says of a text what is written for
it and which flat arrays it has.
"""
import json
import os
import random
import re
from decimal import Decimal, getcontext

TOP = os.path.dirname(os.path.dirname(os.path.dirname(os.path.abspath(__file__))))
KINDS = ["POINT", "LINESTRING", "POLYGON", "MULTIPOINT", "MULTILINESTRING", "MULTIPOLYGON", "GEOMETRYCOLLECTION"]
DIMENSIONS = {"": 0, "Z": 1, "M": 2, "ZM": 3}
SIZES = [2, 3, 3, 4]
getcontext().prec = 200


class Refused(Exception):
    """The text begins with no geometry."""


class Reader:
    """One reading of a text, with decimals of so many places."""

    def __init__(self, text, places):
        found = list(re.finditer(r"[(),]|[^(), \n\r\t]+", text.split("\0")[0]))
        self.lexemes, self.ends = [it[0] for it in found], [it.end() for it in found]
        self.at, self.places = 0, places

    def next(self):
        self.at += 1
        return self.lexemes[self.at - 1] if self.at <= len(self.lexemes) else ""

    def peek(self):
        return self.lexemes[self.at] if self.at < len(self.lexemes) else ""

    def word(self):
        """The next lexeme, if it is a word, with its ASCII letters as capitals."""
        run = self.peek()
        if not run or run in "()," or run[0] in ".+-0123456789":
            return ""
        return "".join(c.upper() if c.isascii() else c for c in run)

    def mark(self, mark):
        if self.next() != mark:
            raise Refused

    def header(self):
        word = self.word()
        self.at += 1
        if word == "LINEARRING":
            kind, joined = 1, ""
        else:
            found = [(k, d) for k in range(7) for d in DIMENSIONS if word == KINDS[k] + d]
            if not found:
                raise Refused
            kind, joined = found[0]
        if not joined and self.word() in ("Z", "M", "ZM"):
            joined = self.word()
            self.at += 1
        return kind, DIMENSIONS[joined]

    def number(self):
        run = self.next()
        run = run[1:] if run[:1] == "+" else run
        if not re.fullmatch(r"[+-]?([0-9]+\.?[0-9]*|\.[0-9]+)", run, re.ASCII):
            raise Refused
        units = Decimal(run).scaleb(self.places)
        if units != units.to_integral_value() or not -(2**127) <= int(units) < 2**127:
            raise Refused
        return int(units)

    def coordinate(self, n):
        return [self.number() for _ in range(n)]

    def list(self, item):
        """EMPTY, or items in parentheses."""
        if self.word() == "EMPTY":
            self.at += 1
            return []
        self.mark("(")
        items = [item()]
        while self.peek() == ",":
            self.at += 1
            items.append(item())
        self.mark(")")
        return items

    def member(self, n):
        """A member of a multipoint, as a ring."""
        if self.word() == "EMPTY":
            self.at += 1
            return []
        if self.peek() != "(":
            return [self.coordinate(n)]
        self.at += 1
        coordinate = self.coordinate(n)
        self.mark(")")
        return [coordinate]

    def geometry(self):
        """Kind, dimension and polygons of rings of coordinates; of a collection its members."""
        kind, dimension = self.header()
        n = SIZES[dimension]

        def line():
            return self.list(lambda: self.coordinate(n))

        if kind == 0:
            if self.word() == "EMPTY":
                self.at += 1
                return kind, dimension, [[[]]]
            self.mark("(")
            coordinate = self.coordinate(n)
            self.mark(")")
            return kind, dimension, [[[coordinate]]]
        if kind == 6:
            return kind, dimension, self.list(self.geometry)
        if kind == 5:
            return kind, dimension, self.list(lambda: self.list(line))
        rings = [line()] if kind == 1 else self.list(lambda: self.member(n)) if kind == 3 else self.list(line)
        return kind, dimension, [rings]


def decimal(units, places):
    """A number of units as a canonical text has it."""
    digits = str(abs(units)).rjust(places + 1, "0")
    whole, fraction = digits[: len(digits) - places], digits[len(digits) - places :].rstrip("0")
    return ("-" if units < 0 else "") + whole + ("." + fraction if fraction else "")


def canonical(value, places):
    """The canonical text of a value."""
    kind, dimension, body = value
    word = KINDS[kind] + "".join(" " + d for d, n in DIMENSIONS.items() if n == dimension and d)

    def listed(items):
        return "(" + ",".join(items) + ")" if items else "EMPTY"

    def ring(coordinates):
        return listed([" ".join(decimal(n, places) for n in coordinate) for coordinate in coordinates])

    def polygon(rings):
        return listed([ring(it) for it in rings] if rings and rings[0] else [])

    if kind == 6:
        text = listed([canonical(member, places) for member in body])
    elif kind == 5:
        text = listed([polygon(it) for it in body])
    elif kind == 2:
        text = polygon(body[0])
    elif kind in (0, 1):
        text = ring(body[0][0])
    else:
        text = listed([ring(it) for it in body[0]])
    return word + (text if text[0] == "(" else " " + text)


def flat(value):
    """The arrays of a value as wkt_arrays returns them, or the status of a call that has none."""
    kind, dimension, polygons = value
    if kind == 6:
        return 24
    numbers, rings, ends = [], [0], [0]
    for polygon in polygons:
        for ring in polygon:
            numbers += [n for coordinate in ring for n in coordinate]
            rings.append(rings[-1] + len(ring))
        ends.append(ends[-1] + len(polygon))
    if any(not -(2**63) <= n < 2**63 for n in numbers):
        return 25
    return kind, dimension, numbers, rings, ends


def expected(data, places):
    """The canonical text of the geometry in front, where it ends, and its arrays; None where there is none."""
    try:
        text = data.decode()
        reader = Reader(text, places)
        value = reader.geometry()
    except (Refused, UnicodeDecodeError):
        return None
    return canonical(value, places), len(text[: reader.ends[reader.at - 1]].encode()), flat(value)


def is_whole(data, end):
    """Whether white space alone follows a geometry that ends there."""
    return not data[end:].strip(b" \t\r\n")


# ---- texts


LIMITS = """9223372036854775807 -9223372036854775808 9223372036854775808 170141183460469231731 170141183460469231732
    170141183460469231731687303715884105727 170141183460469231731687303715884105728
    170141183460469.231731687303715884105727 170.141183460469231731687303715884105727
    -170.141183460469231731687303715884105729 0.000000000000000000000000000000000001 -0 -.0 1. .5 -.5 +-2 ++2
    1e3 -1E-7 0x1 1.2.3 --1 - + . ٣ 1٣ nan -Infinity""".split()


def digits(chance, count):
    return "".join(chance.choice("0123456789") for _ in range(count))


def a_number(chance, places):
    sign = chance.choice(["", "", "", "-", "-", "+"])
    if chance.plain and places > 18 and chance.random() < 0.5:  # 64 bits hold its units
        return sign + "0." + "0" * (places - 18) + digits(chance, chance.randint(1, 18))
    if chance.plain:
        after = digits(chance, chance.randint(0, places))
        return sign + digits(chance, 1 if places > 15 else 3) + ("." + after if after else "")
    if chance.random() < 0.08:
        return chance.choice(LIMITS)
    whole = sign + digits(chance, chance.randint(1, chance.choice([1, 2, 3, 3, 5, 12, 17, 18, 19, 20, 40])))
    if chance.random() < 0.4:
        return whole
    after = digits(chance, chance.randint(0, places if chance.random() < 0.8 else 40))
    return whole + "." + after + chance.choice(["", "", "0", "00000"])


def a_text(chance, places, deep=2):
    kind = chance.randrange(7 if deep else 6)
    dimension = chance.choice(["", "", "Z", "M", "ZM"])
    n = SIZES[DIMENSIONS[dimension]]

    def white():
        return chance.choice(["", "", "", " ", "  ", "\n", "\t ", "\r\n"])

    def some(item, most=3):
        return white() + "(" + ",".join(white() + item() + white() for _ in range(chance.randint(1, most))) + ")"

    def or_empty(item):
        return lambda: chance.choice([" EMPTY ", " empty"]) if chance.random() < 0.08 else item()

    def coordinate():
        return chance.choice([" ", "  "]).join(a_number(chance, places) for _ in range(n))

    line = or_empty(lambda: some(coordinate, chance.choice([1, 3, 12])))
    polygon = or_empty(lambda: some(line))
    body = [
        or_empty(lambda: some(coordinate, 1)),
        line,
        polygon,
        or_empty(lambda: some(or_empty(lambda: coordinate() if chance.random() < 0.5 else "(" + coordinate() + ")"))),
        polygon,
        or_empty(lambda: some(polygon)),
        or_empty(lambda: some(lambda: a_text(chance, places, deep - 1))),
    ][kind]
    name = "".join(chance.choice([c, c.lower()]) for c in KINDS[kind])
    if chance.random() < 0.02:
        name = "LINEARRING"
    joint = chance.choice(["", " "]) if dimension else ""
    return (
        white()
        + name
        + joint
        + chance.choice([dimension, dimension.lower()])
        + (" " if chance.random() < 0.5 else "")
        + body()
        + white()
    )


PIECES = [
    "", "(", ")", ",", " ", "1", "x", "EMPTY", " empty ", "(EMPTY)", "EMPTY,", "()", "Z", " M ", "POINT", "point(1 2)",
    "),(", "SRID=4326;", "CIRCULARSTRING(", "TIN", "nan", "1e-7", "0101000000", " 3", "é", "𝄞", "\u0131", "\ufeff",
    "\u2028", "\u3000", "\u202e", "\0", "\x01", "\x0b", "\x0c", "\x1b[2J", "\x7f", "\x85", "\xa0", "\n", "\r", "\t",
    '"', "\\", "'", "%s", b"\xff", b"\xc3", b"\xed\xa0\x80",
]  # fmt: skip


def damaged(chance, text):
    """Bytes of a text in which some were replaced, which may be no UTF-8."""
    for _ in range(chance.randint(1, 3)):
        at = chance.randint(0, len(text))
        piece = chance.choice(PIECES)
        text = text[:at] + (piece if isinstance(piece, bytes) else piece.encode()) + text[at + chance.randint(0, 2) :]
    return text


def kept_texts():
    folder = f"{TOP}/crates/wkt_tables/data"
    for name in sorted(os.listdir(folder)):
        for row in open(f"{folder}/{name}", encoding="utf-8"):
            try:
                fields = json.loads(row)
            except ValueError:
                continue
            for field in fields.values() if isinstance(fields, dict) else fields if isinstance(fields, list) else []:
                if isinstance(field, str) and any(kind in field.upper() for kind in KINDS):
                    yield field


def rows(count, seed):
    """Texts as bytes, each with its places, whether it is to be whole, and another text, which may name the same."""
    chance = random.Random(seed)
    kept = [text.encode() for text in kept_texts()]
    before = b"POINT(1 2)"
    for i in range(count):
        places = chance.choice([0, 1, 6, 6, 6, 9, 15, 18, 18, 24, 36, chance.randint(0, 36)])
        whole = chance.random() < 0.8
        chance.plain = chance.random() < 0.6
        sort = chance.random()
        if i < len(kept):
            text = kept[i]
        elif sort < 0.1:
            text = damaged(chance, b"")
        else:
            text = a_text(chance, places).encode() if sort < 0.8 else chance.choice(kept)
        if chance.random() < 0.35:
            text = damaged(chance, text)
        written = expected(text, places) if chance.random() < 0.4 else None
        yield places, whole, text, written[0].lower().replace("(", " ( ").encode() if written else before
        before = text
