#!/usr/bin/env python3
"""Writes what the native library answers to made texts, for native.test.js: native.py TEXTS > FILE.

The answers are those of the Python package over the library that WKT_LIB names. Each line is one text, as JSON: its
places, whether it is to be whole, and what each call answers. Places count UTF-16 units, as JavaScript does. Some lines
are made arrays, and what they are the arrays of. The same numbers are made on every machine.
"""
import json
import os
import random
import sys

TOP = os.path.dirname(os.path.dirname(os.path.dirname(os.path.abspath(__file__))))
sys.path.insert(0, f"{TOP}/python")
import wkt  # noqa: E402 (found by the line above)

PIECES = [
    "POINT", "LINESTRING(", "polygon((", "MULTIPOINT(", "MULTILINESTRING((", "MULTIPOLYGON(((", "GEOMETRYCOLLECTION(",
    "LINEARRING", " Z", " zm", " M", "(", ")", "),(", ",", " ", "1", "-2.5", "+.5", "007.", "1e5", "EMPTY", "\0", "\n",
    "\t", "é", "𝄞", "9" * 30, "0." + "0" * 25 + "1", "12345678.87654321", "99999999999999999.5", "SRID=4326;",
    "CIRCULARSTRING(", "TIN", "nan", "-Inf", "()",
    "0101000000000000", "\ufeff", "1 2", "1 2 3", "\x85", "\u00a0", "\u2028", "\u3000", "\u0131", "x",
]  # fmt: skip
WHOLE, FRONT = (0, 1, 6, 6, 6, 15, 18, 18, 24, 36), (6, 18, 36)
CHOICES = [(places, True) for places in WHOLE] + [(places, False) for places in FRONT]


def rows(path):
    with open(f"{TOP}/{path}", encoding="utf-8", newline="\n") as file:
        return [line.rstrip("\n").split("\t")[0] for line in file if not line.startswith("#")]


class Geometries:
    """Texts of geometries, in many spellings."""

    def __init__(self, seed):
        self.some = random.Random(seed)

    def number(self):
        some = self.some
        digits = str(some.randrange(10 ** some.choice([1, 2, 3, 9, 20])))
        fraction = some.choice(
            [
                "",
                "",
                "",
                ".",
                ".5",
                ".25",
                f".{some.randrange(10**6):06}",
                f".{some.randrange(10**some.choice([6, 18, 36]))}",
            ]
        )
        return (
            some.choice(["", "", "-", "+", "00"])
            + some.choice([digits, digits, ""] if len(fraction) > 1 else [digits])
            + fraction
        )

    def space(self, least=""):
        return self.some.choice([least, least, least, " ", "\t", " \n "])

    def listed(self, item, most=4):
        if self.some.random() < 0.08:
            return self.space(" ") + self.some.choice(["EMPTY", "empty"])
        items = [item() for _ in range(self.some.randrange(1, most))]
        return f"{self.space()}({self.space()}{f'{self.space()},{self.space()}'.join(items)}{self.space()})"

    def text(self, depth=0):
        kind = self.some.choice(wkt.KINDS if depth < 3 else wkt.KINDS[:6])
        after, width = self.some.choice([("", 2), ("", 2), (" Z", 3), ("m", 3), (" zm", 4)])

        def coordinate():
            return " ".join(self.number() for _ in range(width))

        def ring():
            return self.listed(coordinate)

        def polygon():
            return self.listed(ring)

        def point():
            return self.some.choice([coordinate, lambda: f"({coordinate()})", lambda: "EMPTY"])()

        bodies = {
            "Point": lambda: self.listed(coordinate, 2), "LineString": ring, "Polygon": polygon,
            "MultiPoint": lambda: self.listed(point), "MultiLineString": polygon,
            "MultiPolygon": lambda: self.listed(polygon),
            "GeometryCollection": lambda: self.listed(lambda: self.text(depth + 1)),
        }  # fmt: skip
        return self.space() + self.some.choice([kind, kind.upper(), kind.lower()]) + after + bodies[kind]()


def texts(count):
    """The texts of the tables; geometries, and those with mistakes; and texts that are made of pieces."""
    known = rows("tests/data/keys.tsv") + rows("crates/wkt_tables/stdin")
    yield from known
    some, geometries = random.Random(11), Geometries(10)
    for _ in range(count - len(known)):
        if some.random() < 0.8:
            text = some.choice([geometries.text(), geometries.text(), some.choice(known)])
            for _ in range(some.choice([0, 0, 0, 1, 1, 2])):
                at = some.randrange(len(text) + 1)
                text = text[:at] + (some.choice(PIECES) if some.random() < 0.5 else "") + text[at + some.randrange(3) :]
        else:
            text = "".join(some.choice(PIECES) for _ in range(some.randrange(14)))
        yield text


def answer(call, *words, **options):
    """What a call answers, or the status of its error."""
    try:
        return call(*words, **options)
    except wkt.WktError as error:
        return error.status


def units(text):
    return len(text.encode("utf-16-le")) // 2


def explained(text, places, whole):
    why = wkt.explain(text, places, whole=whole)
    if why is None:
        return None
    place = [units(text[: why.start]), units(text[: why.stop]), why.line, why.column]
    # What isn't printable is shown in another form.
    plain = all(character.isprintable() or character in "\t\n" for character in text)
    return [
        why.status,
        why.message,
        *place,
        why.expected,
        why.hint,
        why.cause if plain else None,
        str(why) if plain else None,
        why.code,
    ]


def arrays(text, places, whole):
    made = answer(wkt.to_arrays, text, places, whole=whole)
    if isinstance(made, int):
        return made
    return [
        made.kind,
        made.dimension,
        [str(it) for it in made.numbers],
        list(map(int, made.rings)),
        list(map(int, made.polygons)),
    ]


def made_arrays(count):
    """Arrays, of which some are of a geometry, and their text or status."""
    some = random.Random(12)

    def offsets(last):
        inner = sorted(some.randrange(last + 1) for _ in range(some.choice([0, 0, 1, 2])))
        return some.choice([[0], []] + [[0, *inner, last]] * 12 + [[*inner, last]])

    for _ in range(count):
        kind, dimension = some.choice(wkt.KINDS), some.choice(wkt.DIMENSIONS)
        width = {"XY": 2, "XYZ": 3, "XYM": 3, "XYZM": 4}[dimension]
        coordinates = some.choice([0, 1, 1, 2, 3])
        numbers = [some.choice([0, 1, -15, 2**63 - 1, -(2**63), 1000000]) for _ in range(coordinates * width)]
        if some.random() < 0.1:
            numbers = numbers[:-1]
        rings = offsets(coordinates)
        polygons = offsets(max(len(rings) - 1, 0))
        places = some.choice([0, 1, 6, 18, 24, 36])
        text = answer(wkt.from_arrays, wkt.Arrays(kind, dimension, numbers, rings, polygons, places))
        yield {"arrays": [kind, dimension, [str(it) for it in numbers], rings, polygons, places], "text": text}


def main():
    before = "POINT(1 2)"
    some = random.Random(13)
    for text in texts(int(sys.argv[1])):
        places, whole = some.choice(CHOICES)
        asked = {"places": places, "whole": whole}
        row = {"text": text, "places": places, "whole": whole, "canonical": answer(wkt.canonical, text, **asked)}
        row["explain"] = explained(text, places, whole)
        row["arrays"] = arrays(text, places, whole)
        row["infer"] = answer(wkt.infer, text)
        if isinstance(row["canonical"], str) and some.random() < 0.3:
            before = row["canonical"]
        row["before"] = before
        row["same"] = answer(wkt.same, before, text, **asked)
        row["line"] = wkt.lines(text.replace("\n", " "), places).decode()
        before = text
        print(json.dumps(row))
    for row in made_arrays(5000):
        print(json.dumps(row))


if __name__ == "__main__":
    main()
