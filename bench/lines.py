#!/usr/bin/env python3
"""Writes the workloads: lines.py mixed|points|polygons|nested|refused|empty|strange DECIMALS BYTES > FILE.

`points` are lines of one POINT each, `polygons` of one POLYGON; `mixed` are lines of all kinds, short and long;
`nested` are collections in collections, up to eight levels; `refused` are points with a fault each; `empty` are lines
with nothing in them; `strange` are mixed lines in which signs, zeros, spaces and the lengths of numbers differ from one
number to the next. Half of the lines have a space after the kind word and after each comma, as some databases print
them. Numbers have DECIMALS decimals, from 0 to 14 or from 16 on; where DECIMALS is 15, thirteen to fifteen. The same
arguments give the same bytes on every machine.
"""
import sys


class Numbers:
    """A generator of its own (splitmix64), so that the bytes don't depend on the version of a library."""

    def __init__(self, seed):
        self.state = seed

    def below(self, n):
        self.state = (self.state + 0x9E3779B97F4A7C15) % 2**64
        z = self.state
        z = (z ^ (z >> 30)) * 0xBF58476D1CE4E5B9 % 2**64
        z = (z ^ (z >> 27)) * 0x94D049BB133111EB % 2**64
        return (z ^ (z >> 31)) % n


class Lines:
    def __init__(self, decimals):
        self.numbers = Numbers(14)
        self.decimals = decimals

    def units(self, limit):
        return self.numbers.below(2 * limit * 10**15) - limit * 10**15

    def text(self, units):
        places = 13 + self.numbers.below(3) if self.decimals == 15 else min(self.decimals, 15)
        whole, fraction = divmod(abs(units) // 10 ** (15 - places), 10**places)
        sign = "-" if units < 0 else ""
        more = "".join(str(self.numbers.below(10)) for _ in range(15, self.decimals))
        return f"{sign}{whole}.{fraction:0{places}}{more}" if places else f"{sign}{whole}"

    def path(self, count, closed):
        """Coordinates that wander from a place, as those of a coast or a road do."""
        x, y = self.units(180), self.units(90)
        path = []
        for _ in range(count):
            path.append(f"{self.text(x)} {self.text(y)}")
            x += self.numbers.below(2 * 10**13) - 10**13
            y += self.numbers.below(2 * 10**13) - 10**13
        return path + path[:1] if closed else path

    def several(self, most, item):
        return [item() for _ in range(1 + self.numbers.below(most))]

    def line(self, long):
        return self.path(2 + self.numbers.below(long), False)

    def polygon(self, long):
        rings = [self.path(3 + self.numbers.below(long), True)]
        if self.numbers.below(4) == 0:
            rings.append(self.path(3 + self.numbers.below(long // 4 + 1), True))
        return [f"({self.comma.join(ring)})" for ring in rings]

    def body(self, kind, long):
        join, parens = self.comma.join, "({})".format
        if kind == "POINT":
            return join(self.path(1, False))
        if kind == "LINESTRING":
            return join(self.line(long))
        if kind == "POLYGON":
            return join(self.polygon(long))
        if kind == "MULTIPOINT":
            points = self.path(2 + self.numbers.below(min(long, 40)), False)
            return join(points if self.numbers.below(2) else [parens(p) for p in points])
        if kind == "MULTILINESTRING":
            return join(self.several(6, lambda: parens(join(self.line(long // 4)))))
        if kind == "MULTIPOLYGON":
            return join(self.several(4, lambda: parens(join(self.polygon(long // 4)))))
        return join(
            self.several(4, lambda: self.geometry(["POINT", "LINESTRING", "POLYGON"][self.numbers.below(3)], 12))
        )

    def geometry(self, kind, long):
        return f"{kind}{self.space}({self.body(kind, long)})"

    def nested(self, levels):
        """A collection of up to three members, of which any may be a collection again."""
        kinds = ["POINT", "LINESTRING", "POLYGON", "MULTIPOINT", "MULTILINESTRING", "MULTIPOLYGON"]
        members = []
        for _ in range(1 + self.numbers.below(3)):
            if levels > 1 and self.numbers.below(2):
                members.append(self.nested(levels - 1))
            else:
                members.append(self.geometry(kinds[self.numbers.below(len(kinds))], 4))
        return f"GEOMETRYCOLLECTION{self.space}({self.comma.join(members)})"

    def refused(self):
        """A point that is cut off, has another word, lacks a number, has a letter in one, or lacks a parenthesis."""
        x, y = self.path(1, False)[0].split()
        faults = ["POINT{}({} {}", "CIRCLE{}({} {})", "POINT{}({})", "POINT{}({}e {})", "POINT{}{} {}"]
        return faults[self.numbers.below(len(faults))].format(self.space, x, y)

    def next_line(self, workload):
        spaced = self.numbers.below(2)
        self.space, self.comma = (" ", ", ") if spaced else ("", ",")
        if workload == "nested":
            return self.nested(8)
        if workload == "refused":
            return self.refused()
        if workload == "empty":
            return ""
        kinds = ["POINT"] * 31 + ["LINESTRING"] * 6 + ["POLYGON"] * 10 + ["MULTIPOINT"] * 1
        kinds += ["MULTILINESTRING"] * 1 + ["MULTIPOLYGON"] * 1 + ["GEOMETRYCOLLECTION"] * 1
        kind = {"points": "POINT", "polygons": "POLYGON"}.get(workload) or kinds[self.numbers.below(len(kinds))]
        return self.geometry(kind, 900 if kind == "LINESTRING" else 400)


class StrangeLines(Lines):
    """DECIMALS are the most that a number has."""

    # Another space at each place.
    space = property(lambda self: " " * self.numbers.below(3), lambda self, _: None)
    comma = property(lambda self: " " * self.numbers.below(2) + "," + " " * self.numbers.below(3), lambda self, _: None)

    def text(self, units):
        below = self.numbers.below
        sign = ("-" if units < 0 else "") or "+" * (below(8) == 0)
        whole = "0" * (below(4) == 0) + str(below(10 ** (1 + below(6))))
        fraction = "".join(str(below(10)) for _ in range(below(self.decimals + 1))) + "0" * (below(4) == 0)
        return f"{sign}{whole}.{fraction}" if fraction else f"{sign}{whole}"

    def geometry(self, kind, long):
        return super().geometry(kind.lower() if self.numbers.below(2) else kind, long)

    def body(self, kind, long):
        return super().body(kind.upper(), long)


def main():
    workload, decimals, size = sys.argv[1], int(sys.argv[2]), int(sys.argv[3])
    lines = (StrangeLines if workload == "strange" else Lines)(decimals)
    written = 0
    while written < size:
        line = lines.next_line(workload) + "\n"
        written += len(line)
        sys.stdout.write(line)


main()
