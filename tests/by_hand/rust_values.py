#!/usr/bin/env python3
"""Compares the values that the Rust crate reads with those of the crate wkt 0.14.0, over f64 and i64.

    cargo build --release --manifest-path rust/Cargo.toml --example values
    cargo build --release --manifest-path bench/rust/Cargo.toml
    tests/by_hand/rust_values.py rust/target/release/examples/values bench/rust/target/release/values [COUNT [SEED]]

The texts are those of texts.py, COUNT of them (350000), some of them damaged; SEED (7) says which. Each difference has
to fall under a row of rust/FROM_WKT.md; the first that don't are printed, and the status is 1.
"""
import collections
import random
import re
import subprocess
import sys

import texts

VALUE = re.compile(r"(Point|LineString|Polygon|MultiPoint|MultiLineString|MultiPolygon|GeometryCollection)\(")
NUMBER = re.compile(r"expected \((numbers have at most|the number is too large|exponents|NaN)")


def generated(count, seed):
    chance = random.Random(seed)
    kept = [text.encode() for text in texts.kept_texts()]
    for i in range(count):
        places = chance.choice([0, 1, 3, 6, 6, 6, 9, 12, 15, 15, 17, 18])
        chance.plain = chance.random() < 0.75
        text = kept[i] if i < len(kept) else texts.a_text(chance, places).encode()
        yield texts.damaged(chance, text) if chance.random() < 0.15 else text


def both_read(here, there, shown_here, shown_there):
    """The rows that two readings fall under: of the values, and of the texts."""
    plain = re.sub(r"-0\.0(?!\d)", "0.0", there)
    if here != plain:
        return None
    rows = ["the same value"] if here == there else ["the sign of zero"]
    if shown_there == "panic":
        rows.append("a panic")
    elif shown_here != shown_there:
        text = re.sub(r"-0(?![.\d])", "0", shown_there)
        largest = text.replace("170141183460469240000", "170141183460469231731")
        rows.append("the text, by ()" if "()" in text else "the text, by the sign of zero" if text == shown_here else
                    "the text, of the largest number" if largest == shown_here else "")
    return " and ".join(rows) if rows[-1] else None


def row(number, text, here, there, shown_here, shown_there):
    """Why two answers differ over a type of numbers, or None where no row explains it."""
    if VALUE.match(here) and VALUE.match(there):
        return both_read(here, there, shown_here, shown_there)
    if b"\0" in text:
        return "a NUL"
    if here == "More than white space follows the geometry":
        return "more follows"
    if here == there:
        return "the same message"
    if VALUE.match(here):
        if b"EMPTY" in text.upper():
            return "EMPTY in a multipoint"
        return "a whole number with a point" if b"." in text else None
    if NUMBER.search(shown_here) or "more units than 64 bits" in here:
        return "a number"
    # Both refuse. A number that is one of a single crate, or EMPTY in a multipoint, comes before the place.
    if not VALUE.match(there):
        if re.search(rb"[\d.][eE][-+]?\d|nan|inf|\d\.", text, re.I) or b"EMPTY" in text.upper():
            return "another message"
        if re.search(rb"\.\d|\d{19}" if number == "i64" else rb"\d{21}", text):
            return "another message"
    return None


def answers(program, lines):
    run = subprocess.run([program], input=lines, stdout=subprocess.PIPE, check=True)
    return [line.split("\t") for line in run.stdout.decode().removesuffix("\n").split("\n")]


def main():
    if len(sys.argv) < 3:
        print(__doc__.strip())
        return 2
    words = [int(word) for word in sys.argv[3:]]
    count, seed = words + [350000, 7][len(words):]
    given = list(generated(count, seed))
    lines = "".join(text.hex() + "\n" for text in given).encode()
    counts = collections.Counter()
    for text, here, there in zip(given, *(answers(program, lines) for program in sys.argv[1:3])):
        for number, i in (("f64", 0), ("i64", 2)):
            why = row(number, text, here[i], there[i], here[i + 1], there[i + 1])
            counts[number, why] += 1
            if why is None and counts[number, why] <= 10:
                print(text, here[i : i + 2], there[i : i + 2], sep="\n    ")
    for (number, why), count in sorted(counts.items(), key=str):
        print(f"{count:7} {number} {why}")
    return 1 if counts["f64", None] + counts["i64", None] else 0


if __name__ == "__main__":
    sys.exit(main())
