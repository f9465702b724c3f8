#!/usr/bin/env python3
"""Keys by the library for C, in two ways: key_rules.py [FOLDER-OF-libwkt.so [POINTS]]

Each row of tests/data/key_rules.tsv has its key. And so many random points (500), of numbers with 0 to 40 digits after
the point, some of them at the limits of what is read, have at each number of places from 0 to 36 the canonical text, or
are refused, as Python's decimal says. 100000 points take half a minute.
"""
import ctypes
import os
import random
import sys
from decimal import Decimal

TOP = os.path.dirname(os.path.dirname(os.path.dirname(os.path.abspath(__file__))))
sys.path.insert(0, f"{TOP}/tests/by_hand")
sys.dont_write_bytecode = True
import texts  # noqa: E402 (found by the line above)

folder = sys.argv[1] if len(sys.argv) > 1 else os.environ.get("WKT_LIB_DIR", f"{TOP}/capi/out")
points = int(sys.argv[2]) if len(sys.argv) > 2 else 500
wkt = ctypes.CDLL(os.path.join(folder, "libwkt.so"))
size = ctypes.c_size_t
MOST = 36


def key(text, places):
    """The canonical text of a whole text, or `refused`."""
    out = ctypes.create_string_buffer(2 * len(text) + 16)
    needed, end = size(), size()
    status = wkt.wkt_canonical(
        text, size(len(text)), places, out, size(len(out)), ctypes.byref(needed), ctypes.byref(end)
    )
    if status == 0 and not text[end.value :].strip(b" \t\r\n"):
        return out.raw[: needed.value]
    assert status in (0, *range(1, 15), 20), (text, status)
    return b"refused"


def rules():
    """How many rows the table has, and how many keys are others."""
    rows = wrong = 0
    with open(f"{TOP}/tests/data/key_rules.tsv", "rb") as table:
        for line in table:
            if line.startswith(b"#"):
                continue
            places, text, expected = line.rstrip(b"\n").split(b"\t")
            for escape, byte in ((rb"\n", b"\n"), (rb"\r", b"\r"), (rb"\t", b"\t"), (rb"\\", b"\\")):
                text = text.replace(escape, byte)
            rows += 1
            found = [key(text, int(places))]
            if expected != b"refused":
                found.append(key(expected, int(places)))  # a key is its own key
            for answer in found:
                if answer != expected:
                    wrong += 1
                    print("wrong:", places.decode(), text, "has", answer, "and not", expected)
    return rows, wrong


def a_number(chance):
    """A number, with one more unit than is read at some places, or as many, or of any digits."""
    if chance.random() < 0.1:
        units = 2**127 + chance.choice([-2, -1, 0, 1, -(10**9), 10**9])
        return texts.decimal(chance.choice([-1, 1]) * units, chance.randint(0, MOST))
    some = [0, 1, 1, 2, 2, 3, 3] if chance.random() < 0.8 else [5, 8, 15, 20, 21, 38, 39]
    whole = texts.digits(chance, chance.choice(some))
    after = texts.digits(chance, chance.choice([0, 1, 6, 18, 19, 24, 36, 37, chance.randint(0, 40)]))
    zeros = "0" * chance.choice([0, 0, 0, 1, 9])
    if chance.random() < 0.2:
        after = "0" * len(after[1:]) + after[:1]
    if not whole and not after:
        whole = "0"
    return chance.choice(["", "", "-", "+", "00", "-0"]) + whole + ("." + after + zeros if after else "")


def expected(numbers, places):
    """The key of a point of those numbers, or `refused`."""
    units = [number.scaleb(places) for number in numbers]
    if any(it != it.to_integral_value() or not -(2**127) <= it < 2**127 for it in units):
        return "refused"
    return f"POINT({' '.join(texts.decimal(int(it), places) for it in units)})"


def at_each_places(count, seed=36):
    """How many of the answers to random points are others: all at once by places, and the first of them one by one."""
    chance = random.Random(seed)
    wrong = kept = 0
    while count:
        some = min(count, 10_000)
        count -= some
        pairs = [[a_number(chance), a_number(chance)] for _ in range(some)]
        given = [f"{chance.choice(['POINT', 'point '])}({' '.join(pair)})".encode() for pair in pairs]
        numbers = [[Decimal(it[1:] if it[0] == "+" else it) for it in pair] for pair in pairs]
        lines, out, needed = b"\n".join(given), ctypes.create_string_buffer(200 * some), size()
        for places in range(MOST + 1):
            status = wkt.wkt_lines(lines, size(len(lines)), places, out, size(len(out)), ctypes.byref(needed))
            assert status == 0, status
            answers = out.raw[: needed.value].decode().splitlines()
            assert len(answers) == some
            answers += [key(text, places).decode() for text in given[:100]]
            for i, answer in enumerate(answers):
                wanted = expected(numbers[i % some], places)
                kept += answer != "refused"
                if answer != wanted:
                    wrong += 1
                    print("wrong:", places, given[i % some], "has", answer, "and not", wanted)
    return kept, wrong


assert wkt.wkt_lines(b"", size(0), MOST + 1, None, size(0), ctypes.byref(size())) == 23
rows, wrong = rules()
print(f"keys: {rows} rows, {wrong} wrong")
kept, others = at_each_places(points)
print(f"keys: {points} random points at {MOST + 1} numbers of places, {kept} of them read, {others} wrong")
sys.exit(wrong > 0 or rows < 40 or others > 0 or (points > 0 and not kept))
