"""Keys of GeoArrow's columns, whose doubles become the decimals that `repr` writes."""
import decimal
import random
import struct
import unittest

import wkt
from arrow_columns import Arrow, Node, Told, ToldStream, arrow_peer, bits_of, numbers, texts_of

if arrow_peer is not None:
    from wkt import _arrow

NAN, INFINITE = float("nan"), float("inf")
CRS = {"ARROW:extension:metadata": '{"crs":"EPSG:4326"}'}


def named(name):
    return _arrow.metadata_of({"ARROW:extension:name": "geoarrow." + name, **CRS})


def interleaved(coordinates, axes="xy", rows=None):
    flat = numbers("g", [it for each in coordinates for it in each], name=axes)
    nulls = bits_of(coordinates if rows is None else rows)
    return Node("+w:%d" % len(axes), len(coordinates), (nulls,), (flat,))


def separated(coordinates, axes="xy", rows=None):
    columns = tuple(numbers("g", list(its), name=axis) for its, axis in zip(zip(*coordinates), axes))
    return Node("+s", len(coordinates), (bits_of(coordinates if rows is None else rows),), columns)


def lists(offsets, within, rows=None, large=False):
    ends = struct.pack("<%d%s" % (len(offsets), "q" if large else "i"), *offsets)
    held = offsets[1:] if rows is None else rows
    return Node("+L" if large else "+l", len(offsets) - 1, (bits_of(held), ends), (within,))


def plain(number):
    """What `repr` writes, without an exponent or zeros at the end."""
    return "{:f}".format(decimal.Decimal(repr(number)).normalize())


def keys_of(name, node, *given, **more):
    return wkt.keys(Told(node._replace(metadata=named(name))), *given, **more)


SIX = [(1.5, 2), (3, 4), (5, 0.1), (1.5, 2), (7, 8), (9, -0.25)]


class Kinds(Arrow):
    def test_kinds(self):
        """Each kind by its lists, as GeoArrow's specification has them, with both ways of coordinates."""
        cases = [
            ("point", [],
             ["POINT(1.5 2)", "POINT(3 4)", "POINT(5 0.1)", "POINT(1.5 2)", "POINT(7 8)", "POINT(9 -0.25)"]),
            ("linestring", [[0, 2, 2, 6]],
             ["LINESTRING(1.5 2,3 4)", "LINESTRING EMPTY", "LINESTRING(5 0.1,1.5 2,7 8,9 -0.25)"]),
            ("multipoint", [[0, 1, 3, 3]], ["MULTIPOINT((1.5 2))", "MULTIPOINT((3 4),(5 0.1))", "MULTIPOINT EMPTY"]),
            ("polygon", [[0, 1, 1, 2], [0, 4, 6]],
             ["POLYGON((1.5 2,3 4,5 0.1,1.5 2))", "POLYGON EMPTY", "POLYGON((7 8,9 -0.25))"]),
            ("multilinestring", [[0, 2, 2], [0, 2, 6]],
             ["MULTILINESTRING((1.5 2,3 4),(5 0.1,1.5 2,7 8,9 -0.25))", "MULTILINESTRING EMPTY"]),
            ("multipolygon", [[0, 2, 2], [0, 2, 3], [0, 1, 4, 6]],
             ["MULTIPOLYGON(((1.5 2),(3 4,5 0.1,1.5 2)),((7 8,9 -0.25)))", "MULTIPOLYGON EMPTY"]),
        ]  # fmt: skip
        for name, offsets, wanted in cases:
            for coordinates in (interleaved, separated):
                for large in (False, True):
                    node = coordinates(SIX)
                    for each in reversed(offsets):
                        node = lists(each, node, large=large)
                    made = keys_of(name, node)
                    self.assertEqual(made.to_pylist(), wanted)
                    self.assertEqual(made.metadata, {"ARROW:extension:name": "geoarrow.wkt", **CRS})
                    for first in range(1, len(wanted)):  # from a row on, and in a table
                        part = node._replace(offset=first, length=node.length - first)
                        self.assertEqual(keys_of(name, part).to_pylist(), wanted[first:])
                    table = Node("+s", node.length - 1, (None,), (node._replace(metadata=named(name)),), offset=1)
                    self.assertEqual(wkt.keys(Told(table)).to_pylist(), wanted[1:])

    def test_dimensions(self):
        four = [(1, 2, 3, 4), (5, 6, 7, 8.5)]
        for axes, words in (("xyz", " Z(1 2 3,5 6 7)"), ("xym", " M(1 2 3,5 6 7)"), ("xyzm", " ZM(1 2 3 4,5 6 7 8.5)")):
            for coordinates in (interleaved, separated):
                node = lists([0, 2], coordinates([it[: len(axes)] for it in four], axes))
                self.assertEqual(list(keys_of("linestring", node)), ["LINESTRING" + words])
        unnamed = interleaved([it[:3] for it in four], "xyz")
        unnamed = unnamed._replace(columns=(unnamed.columns[0]._replace(name="item"),))
        self.assertEqual(list(keys_of("point", unnamed)), ["POINT Z(1 2 3)", "POINT Z(5 6 7)"])

    def test_nulls(self):
        """Of a null row the numbers may be anything, and null too."""
        rows = [1, None, 2]
        for coordinates in (interleaved, separated):
            for second in ((7, 8), (None, None), (NAN, INFINITE)):
                node = coordinates([(1, 2), second, (3, 4)], rows=rows)
                made = keys_of("point", node)
                self.assertEqual(made.to_pylist(), ["POINT(1 2)", None, "POINT(3 4)"])
                self.assertEqual(made.statuses.tolist(), [0, 28, 0])
            node = lists([0, 1, 3, 6], coordinates(SIX), rows=rows)
            wanted = ["LINESTRING(1.5 2)", None, "LINESTRING(1.5 2,7 8,9 -0.25)"]
            self.assertEqual(keys_of("linestring", node).to_pylist(), wanted)
        self.assertEqual(keys_of("point", interleaved([])).to_pylist(), [])

    def test_empty_and_infinite(self):
        """A point that is NaN alone is EMPTY; any other NaN, and what is infinite, is no number."""
        points = [(NAN, NAN), (1, NAN), (INFINITE, 2), (3, -INFINITE), (4, 5)]
        for coordinates in (interleaved, separated):
            made = keys_of("point", coordinates(points), invalid="null")
            self.assertEqual(made.to_pylist(), ["POINT EMPTY", None, None, None, "POINT(4 5)"])
            self.assertEqual(made.statuses.tolist(), [0, 13, 13, 13, 0])
            with self.assertRaises(wkt.WktError) as raised:
                keys_of("point", coordinates(points))
            self.assertEqual((raised.exception.row, raised.exception.status), (1, 13))
            made = keys_of("multipoint", lists([0, 2, 3], coordinates([(1, 2), (NAN, NAN), (NAN, 1)])), invalid="null")
            self.assertEqual(made.to_pylist(), ["MULTIPOINT((1 2),EMPTY)", None])
            made = keys_of("linestring", lists([0, 2], coordinates([(1, 2), (NAN, NAN)])), invalid="null")
            self.assertEqual(made.statuses.tolist(), [13])

    def test_empty_parts(self):
        """As in texts: a polygon whose first ring is EMPTY is EMPTY itself (docs/KEYS.md)."""
        cases = [
            ("polygon", [[0, 2], [0, 0, 4]], "POLYGON(EMPTY,(1.5 2,3 4,5 0.1,1.5 2))", "POLYGON EMPTY"),
            ("polygon", [[0, 2], [0, 4, 4]], "POLYGON((1.5 2,3 4,5 0.1,1.5 2),EMPTY)", None),
            ("multilinestring", [[0, 2], [0, 0, 2]], "MULTILINESTRING(EMPTY,(1.5 2,3 4))", None),
            ("multipolygon", [[0, 2], [0, 0, 1], [0, 4]], "MULTIPOLYGON(EMPTY,((1.5 2,3 4,5 0.1,1.5 2)))", None),
        ]
        for name, offsets, text, key in cases:
            node = separated(SIX)
            for each in reversed(offsets):
                node = lists(each, node)
            self.assertEqual(keys_of(name, node).to_pylist(), [key or text])
            self.assertEqual(wkt.canonical(text), key or text)

    def test_doubles(self):
        """Each number is what `repr` writes, without an exponent; what has more than the places is refused."""
        values = [0.1, -0.0, 1e-7, 13.404953999999998, 1 / 3, 0.1 + 0.2, 2.675, 1e15, 9007199254740993.0, 123456.789]
        values.append(-1e-18)
        wanted = ["{:f}".format(decimal.Decimal(repr(it)).normalize()) for it in values]
        wanted[1] = "0"
        made = keys_of("point", interleaved([(it, 1) for it in values]))
        self.assertEqual(made.to_pylist(), ["POINT(%s 1)" % it for it in wanted])
        made = keys_of("point", interleaved([(it, 1) for it in values]), 6, "null")
        fits = [len(it.partition(".")[2]) <= 6 for it in wanted]
        self.assertEqual([status == 0 for status in made.statuses], fits)
        self.assertEqual(keys_of("point", interleaved([(5.0, -0.0)]), 0).to_pylist(), ["POINT(5 0)"])
        many = separated([(1e-40, 1), (1e300, 1)])
        self.assertEqual(keys_of("point", many, invalid="null").statuses.tolist(), [13, 13])

    def test_there_and_back(self):
        """Keys of the doubles that arrays of 64 bits become: of 2^53 units and more too each is rounded once."""
        make = random.Random(20261201)
        for most, places in ((180, 15), (180, 14), (1e7, 9), (5e-4, 22)):
            pairs = [(make.uniform(-most, most), make.uniform(-most, most)) for _ in range(600)]
            texts = ["POINT(%s %s)" % tuple(map(plain, pair)) for pair in pairs]
            texts = [text for text in wkt.canonical(texts, places, "null") if text is not None]
            self.assertGreater(len(texts), 200)
            made = wkt.to_arrays_column(texts, places).geoarrow()
            self.assertEqual(wkt.keys(made, places).to_pylist(), texts)

    def test_wide(self):
        """Numbers that 64 bits don't hold at the places of their row have the key that their text has."""
        pairs = [(6.123e-17, 1.0), (500000.12345678906, 1e-15), (1e20, -0.25), (-179.99999999999997, 1e-18), (1.0, 2.0)]
        texts = [tuple(map(plain, pair)) for pair in pairs]
        self.assertEqual(keys_of("point", interleaved(pairs), 20, "null")[0], "POINT(0.00000000000000006123 1)")
        made = keys_of("point", interleaved(pairs[1:])).to_pylist()
        self.assertEqual(made, ["POINT(%s %s)" % it for it in texts[1:]])
        line = lists([0, 3, 3, 5], interleaved(pairs))
        wanted = ["LINESTRING(%s %s,%s %s,%s %s)" % sum(texts[:3], ()), "LINESTRING EMPTY"]
        wanted.append("LINESTRING(%s %s,%s %s)" % sum(texts[3:], ()))
        self.assertEqual(keys_of("linestring", lists([0, 2, 2, 5], interleaved(pairs)), 36, "null")[1], wanted[1])
        self.assertEqual(keys_of("linestring", line, 18, "null").to_pylist(), [None, *wanted[1:]])
        self.assertEqual(keys_of("linestring", line, 20, "null").to_pylist(), [None, *wanted[1:]])
        inner = separated([(1e-18, 170.0), (0.1, 200.0), (2.0, 2.5)])
        made = keys_of("multipoint", lists([0, 1, 3], inner)).to_pylist()
        self.assertEqual(made, ["MULTIPOINT((%s 170))" % plain(1e-18), "MULTIPOINT((0.1 200),(2 2.5))"])

    def test_same_as_texts(self):
        """With any places those rows are refused whose texts are, and the places that are named read them."""
        make = random.Random(7)
        fine = [6.123e-17, 0.0, 1e22, 2.0**63, 2.0**127, -1.71e38, 170.1, 170.2, 500000.12345678906, 1e-36, 5e-324]
        pairs = [(make.choice(fine), make.uniform(-1, 1) * 10.0 ** make.randrange(-9, 20)) for _ in range(100)]
        texts = ["POINT(%s %s)" % tuple(map(plain, pair)) for pair in pairs]
        for places in (0, 9, 18, 19, 30, 36):
            made = keys_of("point", interleaved(pairs), places, "null")
            self.assertEqual(made.to_pylist(), wkt.canonical(texts, places, "null"))
            for text in [text for text, key in zip(texts, made) if key is None][:40]:
                with self.assertRaises(wkt.WktError) as raised:
                    keys_of("point", interleaved([pairs[texts.index(text)]]), places)
                named = str(raised.exception).partition("; places=")[2].partition(" ")[0]
                reads = [it for it in range(37) if wkt.canonical(text, it, "null") is not None]
                self.assertIn(int(named), reads) if named else self.assertEqual(reads, [])

    def test_causes(self):
        for pair, places, why in (
            ((1.5, NAN), 18, "nan is no decimal: NaN and infinity have no key"),
            ((-INFINITE, 1.5), 18, "-inf is no decimal: NaN and infinity have no key"),
            ((0.1234567, 1.0), 6, "0.1234567 has 7 places, at most 6 are allowed; places=7 reads the row"),
            ((200.0, 1.0), 36, "200 is too large for 36 places; places=35 reads the row"),
            ((1e-36, 200.0), 18, "%s has 36 places, at most 18 are allowed; no number of places reads the row"
             % plain(1e-36)),
        ):  # fmt: skip
            with self.assertRaises(wkt.WktError) as raised:
                keys_of("point", interleaved([(1, 2), pair]), places)
            self.assertEqual((str(raised.exception), raised.exception.status), ("row 1: " + why, 13))

    def test_streams(self):
        chunks = [lists(ends, interleaved(SIX)) for ends in ([0, 2], [0], [0, 3, 6])]
        chunks[0] = chunks[0]._replace(metadata=named("linestring"))
        made = wkt.keys(ToldStream(*chunks))
        wanted = ["LINESTRING(1.5 2,3 4)", "LINESTRING(1.5 2,3 4,5 0.1)", "LINESTRING(1.5 2,7 8,9 -0.25)"]
        self.assertEqual(made.to_pylist(), wanted)
        wrong = lists([0, 1, 2], interleaved([(1, 2), (3, NAN)]))
        with self.assertRaises(wkt.WktError) as raised:
            wkt.keys(ToldStream(*chunks, wrong))
        self.assertEqual(raised.exception.row, 4)
        many = [(i, i / 8) for i in range(250_000)]  # by blocks
        self.assertEqual(list(keys_of("point", separated(many)))[-1], "POINT(249999 31249.875)")
        ends = list(range(0, 250_001, 50_000)) + [250_000] * 3
        made = keys_of("linestring", lists(ends, interleaved(many)))
        self.assertEqual([text.count(",") for text in made], [49_999] * 5 + [0] * 3)
        self.assertTrue(made[4].endswith(",249999 31249.875)"))


class Others(Arrow):
    def test_collections(self):
        """They are refused by their name, in the first row that is not null."""
        inner = Node("+ud:1", 1, (b"\0", b"\0\0\0\0"), (interleaved([(1, 2)]),))
        node = lists([0, 0, 0, 1], inner, rows=[None, 1, 1])
        with self.assertRaises(wkt.WktError) as raised:
            keys_of("geometrycollection", node)
        self.assertEqual((raised.exception.row, raised.exception.status), (1, 24))
        self.assertIn("row 1: A collection", str(raised.exception))
        made = keys_of("geometrycollection", node, invalid="null")
        self.assertEqual((made.to_pylist(), made.statuses.tolist()), ([None] * 3, [28, 24, 24]))

    def test_types(self):
        """What isn't GeoArrow, or is another kind than it says, is named."""
        good = lists([0, 2], interleaved(SIX))
        for name, node in (
            ("polygon", good), ("linestring", lists([0, 1], good)), ("box", good), ("geometry", good),
            ("wkt", texts_of([b"x"])), ("point", separated(SIX, "yx")),
            ("point", separated(SIX, "xz")), ("point", numbers("g", [1])), ("point", Node("+w:5", 0, (None,))),
        ):  # fmt: skip
            with self.subTest(name), self.assertRaises(TypeError) as raised:
                keys_of(name, node)
            self.assertIn("and not of geoarrow.%s; canonical takes texts" % name, str(raised.exception))
        with self.assertRaises(TypeError) as raised:
            wkt.keys(Told(good))
        self.assertIn("without a name of GeoArrow", str(raised.exception))
        with self.assertRaises(TypeError) as raised:
            wkt.canonical(Told(good._replace(metadata=named("linestring"))))
        self.assertIn("and not of +l; keys takes GeoArrow", str(raised.exception))
        Told.held.clear()  # nobody took these
        # What GeoPandas lends unless it is told otherwise, and what DuckDB and GDAL wrote before there was GeoArrow.
        for metadata in (named("wkb"), _arrow.metadata_of({"ARROW:extension:name": "ogc.wkb"})):
            for call in (wkt.canonical, wkt.keys):
                with self.assertRaises(TypeError) as raised:
                    call(Told(texts_of([b"x"])._replace(metadata=metadata)))
                self.assertIn("well-known binary isn't read: wkt.keys takes a GeoSeries itself", str(raised.exception))
                Told.held.clear()

    def test_wrong(self):
        """Whatever can't be is seen before it is used."""
        inner, line = interleaved(SIX), lists([0, 2], interleaved(SIX))
        numbers_of = inner.columns[0]
        cases = [
            ("linestring", lists([0, 7], inner)), ("linestring", lists([-1, 2], inner)),
            ("linestring", lists([2, 1], inner)), ("linestring", line._replace(length=-1)),
            ("linestring", line._replace(buffers=line.buffers[:1])),
            ("linestring", line._replace(buffers=(None, None))),
            ("linestring", lists([0, 2], interleaved(SIX, rows=[None] * 6))),
            ("linestring", lists([0, 2], separated(SIX, rows=[None] * 6))),
            ("linestring", lists([0, 2], interleaved([(None, 1), (2, 3)]))),
            ("polygon", lists([0, 1], lists([0, 2], inner, rows=[None]))),
            ("polygon", lists([2**45, 2**45 + 1], line._replace(buffers=(b"\1", line.buffers[1])), large=True)),
            ("polygon", lists([0, 1], line._replace(buffers=()))),
            ("point", interleaved([(None, 1)])), ("point", separated([(1, None)])),
            ("point", inner._replace(length=7)), ("point", inner._replace(buffers=())),
            ("point", inner._replace(columns=(numbers_of._replace(buffers=(None, None)),))),
            ("point", inner._replace(columns=(numbers_of._replace(length=11),))),
            ("point", separated(SIX)._replace(length=7)), ("point", separated(SIX)._replace(buffers=())),
        ]  # fmt: skip
        for name, node in cases:
            with self.subTest(node), self.assertRaises(ValueError) as raised:
                keys_of(name, node)
            self.assertIn("the Arrow column is wrong: ", str(raised.exception))


if __name__ == "__main__":
    unittest.main()
