"""A reader of texts in dialects that shares nothing with the library.

It follows docs/DIALECTS.md: of the lexemes of texts.Reader it makes those that they are read as.
"""
import re
import string
from decimal import Decimal

import texts

NAMES = ["srid", "untagged", "exponents", "nan"]
CAPITALS = str.maketrans(string.ascii_lowercase, string.ascii_uppercase)
HEADERS = {kind + d: (k, d) for k, kind in enumerate(texts.KINDS) for d in texts.DIMENSIONS} | {"LINEARRING": (1, "")}
SRID = re.compile(r"[ \t\r\n]*srid=([0-9]{1,9});", re.ASCII | re.IGNORECASE)
SCALED = re.compile(r"([+-]?(?:[0-9]+\.?[0-9]*|\.[0-9]+))[eE]([+-]?[0-9]+)", re.ASCII)


def names(dialects):
    """The names in a list with commas, without ewkt."""
    return set(dialects.replace("ewkt", "srid,untagged").split(",")) & set(NAMES)


def upper(run):
    """With its ASCII letters as capitals."""
    return run.translate(CAPITALS)


def is_number(run):
    return run[0] in ".+-0123456789"


def is_nan(run):
    return upper(run) == "NAN"


def header(run):
    """The kind and the joined dimension that a word names; None where it names no kind."""
    return HEADERS.get(upper(run))


class Reader(texts.Reader):
    """One reading of a text without its SRID."""

    def __init__(self, text, places, dialects):
        super().__init__(text, places)
        self.dialects = dialects
        given, self.lexemes, self.ends, at, spot = list(zip(self.lexemes, self.ends)), [], [], 0, ("elsewhere",)
        while at < len(given):
            count = self.empties(spot, given[at:]) if "nan" in dialects else 0
            run = "EMPTY" if count else given[at][0]
            if "untagged" in dialects and not count and header(run) and not header(run)[1]:
                run = self.tagged(run, given[at + 1 :])
            at += count or 1
            self.lexemes.append(run)
            self.ends.append(given[at - 1][1])
            spot = self.behind(spot, run)

    def counts(self, run):
        return is_number(run) or "nan" in self.dialects and is_nan(run)

    def tagged(self, run, after):
        """A kind word, with the dimension that the first coordinate behind it says."""
        found = depth = 0
        for it, _ in after:
            if found or depth and self.counts(it):
                if not self.counts(it):
                    break
                found += 1
            elif it == "(":
                depth += 1
            elif it == ")" and depth > 1:
                depth -= 1
            elif not depth or it != "," and upper(it) != "EMPTY":
                break
        return texts.KINDS[header(run)[0]] + {3: "Z", 4: "ZM"}[found] if found in (3, 4) else run

    @staticmethod
    def behind(spot, run):
        """Where the lexeme behind this one stands."""
        if header(run):
            return "headed", *header(run)
        if spot[0] == "headed" and upper(run) in ("Z", "M", "ZM"):
            return "headed", spot[1], upper(run)
        if spot[0] == "headed" and spot[1] == 3 and run == "(":
            return "begins", spot[2]
        if spot[0] in ("begins", "within"):
            return "begins" if run == "," else "within", spot[1]
        return ("elsewhere",)

    @staticmethod
    def empties(spot, given):
        """How many lexemes here are an empty point."""
        if spot[0] not in ("headed", "begins") or spot[0] == "headed" and spot[1] != 0:
            return 0
        n, runs = texts.SIZES[texts.DIMENSIONS[spot[-1]]], [it for it, _ in given]
        if spot[0] == "begins" and len(runs) >= n and all(map(is_nan, runs[:n])):
            return n
        within = len(runs) > n + 1 and runs[0] == "(" and runs[n + 1] == ")" and all(map(is_nan, runs[1 : n + 1]))
        return n + 2 if within else 0

    def number(self):
        found = SCALED.fullmatch(self.peek()) if "exponents" in self.dialects else None
        if not found:
            return super().number()
        self.at += 1
        number, power = Decimal(found[1]), int(found[2])
        if number and abs(power) > 1000 + len(found[1]):
            raise texts.Refused
        units = number.scaleb(power + self.places) if number else number
        if units != units.to_integral_value() or not -(2**127) <= int(units) < 2**127:
            raise texts.Refused
        return int(units)


def split(text, dialects):
    """The SRID in front, or None, and what is read of the text."""
    found = SRID.match(text)
    return (int(found[1]) if found else None), text[found.end() :] if found and "srid" in dialects else text


def expected(data, places, dialects):
    """As texts.expected, of a text in dialects."""
    try:
        text = data.decode()
    except UnicodeDecodeError:
        return None
    rest = split(text, dialects)[1]
    for kind in [texts.Reader, Reader] if dialects else [texts.Reader]:
        try:
            reader = kind(rest, places) if kind is texts.Reader else Reader(rest, places, dialects)
            value = reader.geometry()
        except texts.Refused:
            continue
        end = len(text.encode()) - len(rest[reader.ends[reader.at - 1] :].encode())
        return texts.canonical(value, places), end, texts.flat(value)
    return None
