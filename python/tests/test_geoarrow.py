"""Columns as GeoArrow's buffers, beside Shapely."""
import random
import unittest

import wkt
from modules import installed

numpy, shapely = installed("numpy"), installed("shapely.wkt")


def nested(flat, offsets):
    """The nested lists of GeoArrow's buffers."""
    for one in reversed(offsets):
        flat = [flat[start:end] for start, end in zip(one[:-1], one[1:])]
    return flat


def theirs(geometry):
    """The coordinates of a geometry of Shapely, nested as GeoArrow has them."""
    kind = geometry.geom_type
    if kind == "Point":
        return None if geometry.is_empty else list(geometry.coords[0])
    if kind == "LineString":
        return [list(place) for place in geometry.coords]
    if kind == "Polygon":
        rings = [] if geometry.is_empty else [geometry.exterior] + list(geometry.interiors)
        return [[list(place) for place in ring.coords] for ring in rings]
    if kind == "MultiPoint":
        return [list(point.coords[0]) for point in geometry.geoms]
    return [theirs(member) for member in geometry.geoms]


@unittest.skipIf(numpy is None, "no NumPy")
class GeoArrow(unittest.TestCase):
    def texts(self, kind, z, make):
        def place():
            return " ".join("%.3f" % make.uniform(-180, 180) for _ in range(3 if z else 2))

        def line(least=2):
            return "(" + ",".join(place() for _ in range(make.randrange(least, 6))) + ")"

        def ring():
            first = place()
            return "(" + ",".join([first] + [place() for _ in range(make.randrange(2, 5))] + [first]) + ")"

        def many(one):
            return "(" + ",".join(one() for _ in range(make.randrange(1, 4))) + ")"

        body = {
            "Point": lambda: "(%s)" % place(),
            "LineString": line,
            "Polygon": lambda: many(ring),
            "MultiPoint": lambda: many(lambda: "(%s)" % place()),
            "MultiLineString": lambda: many(line),
            "MultiPolygon": lambda: many(lambda: many(ring)),
        }[kind]
        head = kind.upper() + (" Z" if z else "")
        return [head + body() for _ in range(100)] + [None, head + " EMPTY"] + [head + body() for _ in range(3)]

    @unittest.skipIf(shapely is None, "no Shapely")
    def test_six_kinds(self):
        make = random.Random(3)
        for kind in wkt.KINDS[:6]:
            for z in (False, True):
                texts = self.texts(kind, z, make)
                held = wkt.to_arrays_column(texts, 6)
                made = held.geoarrow(6)
                self.assertEqual((made.extension, made.dimension), ("geoarrow." + kind.lower(), "XYZ" if z else "XY"))
                mine = nested(made.coordinates.tolist(), [offsets.tolist() for offsets in made.offsets])
                self.assertEqual((len(mine), len(made.valid)), (len(texts), len(texts)))
                for text, got, valid in zip(texts, mine, made.valid):
                    self.assertEqual(valid, text is not None)
                    if text is None:
                        continue
                    wanted = theirs(shapely.wkt.loads(text))
                    if wanted is None:
                        self.assertTrue(all(number != number for number in got))
                    else:
                        self.assertEqual(got, wanted, text)

    def test_nearest(self):
        """Each double is that which Python reads of the decimal: of units up to 64 bits, of halves the even one."""
        make = random.Random(11)
        units = [2**53 + i for i in range(-3, 6)] + [2**63 - 1, 2**63 - 512, 2**62 + 256, 2**62 + 768, 5 * 10**17 + 1]
        units += [make.randrange(2 ** make.randrange(1, 64)) for _ in range(400)]
        units += [-unit for unit in units] + [-(2**63)]
        for places in (0, 1, 9, 14, 15, 18, 22, 23, 36):
            numbers, rows = numpy.array(units + [0], "int64"), numpy.arange(len(units) // 2 + 2)
            zeros = numpy.zeros(len(rows) - 1, "uint32")
            held = wkt.ColumnArrays(zeros, zeros, numbers[: 2 * rows[-1]], 2 * rows, *[None] * 4, zeros, places)
            made = held.geoarrow().coordinates.reshape(-1).tolist()
            self.assertEqual(made, [float("%de-%d" % (unit, places)) for unit in numbers[: 2 * rows[-1]].tolist()])

    def test_empty_members(self):
        """EMPTY in each place of each kind and dimension: the lists that a text was written of come back."""
        make = random.Random(5)

        def place(width):
            return [make.randrange(-99, 99) / 4 for _ in range(width)]

        def member(depth, width):
            """A member with so many lists in it; [] is EMPTY. A polygon begins with a ring that isn't."""
            if depth == 0:
                return place(width)
            held = [member(depth - 1, width) for _ in range(make.randrange(4))]
            while depth == 2 and held and not held[0]:
                del held[0]
            return held

        def point(width):
            return make.choice([[], place(width)])

        def written(it):
            if not it:
                return "EMPTY"
            one = isinstance(it[0], float)
            return " ".join("%g" % number for number in it) if one else "(%s)" % ",".join(map(written, it))

        def inner(it, kind):
            """The text of a value; a point of its own has parentheses."""
            return "(%s)" % written(it) if it and kind == "Point" else written(it)

        depths = {"LineString": 1, "Polygon": 2, "MultiLineString": 2, "MultiPolygon": 3}
        for kind in wkt.KINDS[:6]:
            for dimension in wkt.DIMENSIONS:
                width = len(dimension)
                head = (kind.upper() + " " + dimension[2:]).strip() + " "
                if kind == "Point":
                    rows = [point(width) for _ in range(60)]
                elif kind == "MultiPoint":
                    rows = [[point(width) for _ in range(make.randrange(4))] for _ in range(60)]
                elif kind == "MultiLineString":
                    rows = [[member(1, width) for _ in range(make.randrange(4))] for _ in range(60)]
                else:
                    rows = [member(depths[kind], width) for _ in range(60)]
                texts = [head + inner(row, kind) for row in rows]
                held = wkt.to_arrays_column([*texts, None], 2)
                self.assertEqual(wkt.from_arrays_column(held)[0], [*wkt.canonical(texts), None])
                self.assertEqual(wkt.from_arrays(wkt.to_arrays(texts, 2)), wkt.canonical(texts))
                made = held.geoarrow()
                mine = nested(made.coordinates.tolist(), [offsets.tolist() for offsets in made.offsets])
                empty = [numpy.nan] * width
                if "Point" in kind:
                    rows = [row or empty if kind == "Point" else [it or empty for it in row] for row in rows]
                numpy.testing.assert_equal(mine[:-1], rows)
                numpy.testing.assert_equal(mine[-1], empty if kind == "Point" else [])
        with self.assertRaises(ValueError):
            held = wkt.to_arrays_column(["MULTIPOINT(1 2,3 4)"])
            held._replace(rings=numpy.array([0, 2, 2], numpy.uint64)).geoarrow()

    def test_mixed(self):
        for texts in (["POINT(1 2)", "LINESTRING(1 2,3 4)"], ["POINT(1 2)", "POINT Z(1 2 3)"]):
            with self.assertRaises(ValueError):
                wkt.to_arrays_column(texts).geoarrow()
        made = wkt.to_arrays_column(["POINT(1 2)", "x", None]).geoarrow()
        self.assertEqual(made.valid.tolist(), [True, False, False])
        self.assertEqual(made.coordinates[0].tolist(), [1, 2])
        self.assertEqual(wkt.to_arrays_column([]).geoarrow().extension, "geoarrow.point")

    def test_offsets_that_are_too_large(self):
        """Offsets of 32 bits are those that were counted, or an error."""
        nothing = numpy.broadcast_to(numpy.int64(0), (2**33 + 2,))  # it takes no memory
        one = numpy.array([0, 1], numpy.uint64)
        for last in (2**32, 2**32 + 2, 2**33 + 2):
            zero = numpy.zeros(1, numpy.uint32)
            held = wkt.ColumnArrays(numpy.array([1], numpy.uint32), zero, nothing[:last], numpy.array([0, last]),
                                    one, numpy.array([0, 2]), one, numpy.array([0, 2]), zero)  # fmt: skip
            for kind in (1, 2, 3, 4, 5):
                with self.assertRaises(OverflowError):
                    held._replace(kinds=numpy.array([kind], numpy.uint32)).geoarrow()

    def test_halves(self):
        """The doubles are the nearest ones."""
        texts = [
            "POINT(%s %s)" % (a, b) for a, b in (("0.1", "0.3"), ("2.675", "-1.005"), ("9007199254.740991", "0.000001"))
        ]
        made = wkt.to_arrays_column(texts, 6).geoarrow(6)
        self.assertEqual(made.coordinates.tolist(), [[0.1, 0.3], [2.675, -1.005], [9007199254.740991, 0.000001]])


if __name__ == "__main__":
    unittest.main()
