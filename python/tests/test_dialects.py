"""Dialects in each call that takes them, the SRID, and events. What is read is as docs/DIALECTS.md says."""
import io
import os
import subprocess
import sys
import tempfile
import unittest

import wkt
import wkt._slow
from modules import installed

numpy, pandas = installed("numpy"), installed("pandas")
from wkt._native import calls  # noqa: E402

ALL = "ewkt,exponents,nan"
# A text, dialects, and the text that it is read as; None where it is refused.
READ = [
    ("SRID=4326;POINT(1 2)", "srid", "POINT(1 2)"),
    (" srid=4326; POINT(1 2)", "srid", "POINT(1 2)"),
    ("SRID=4326 ;POINT(1 2)", "srid", None),
    ("SRID=1000000000;POINT(1 2)", "srid", None),
    ("SRID=1;SRID=1;POINT(1 2)", "srid", None),
    ("SRID=4326;POINT(1 2)", "untagged,exponents,nan", None),
    ("POINT(1 2 3)", "untagged", "POINT Z(1 2 3)"),
    ("POINT(1 2 3 4)", "untagged", "POINT ZM(1 2 3 4)"),
    ("POINT(1 2 3)", "srid,exponents,nan", None),
    ("LINESTRING(1 2 3,4 5)", "untagged", None),
    ("MULTIPOINT(EMPTY,(1 2 3))", "untagged", "MULTIPOINT Z(EMPTY,(1 2 3))"),
    ("GEOMETRYCOLLECTION(POINT(1 2 3),POINT(1 2))", "untagged", "GEOMETRYCOLLECTION(POINT Z(1 2 3),POINT(1 2))"),
    ("POINT(nan nan)", "nan", "POINT EMPTY"),
    ("POINT(nan nan nan)", "nan", None),
    ("POINT(nan nan nan)", "untagged,nan", "POINT Z EMPTY"),
    ("MULTIPOINT(nan nan, 1 2)", "nan", "MULTIPOINT(EMPTY,(1 2))"),
    ("LINESTRING(nan nan,1 1)", "nan", None),
    ("POINT(1e3 2E-3)", "exponents", "POINT(1000 0.002)"),
    ("POINT(.5e1 5.e1)", "exponents", "POINT(5 50)"),
    ("POINT(0e99 0e-99)", "exponents", "POINT(0 0)"),
    ("POINT(1e400 2)", "exponents", None),
    ("POINT(1e 2)", "exponents", None),
    ("SRID=7;POINT(1e3 2 3)", "ewkt, exponents", "POINT Z(1000 2 3)"),
    ("SRID=7;POINT(1e3 2 3)", "ewkt", None),
]
# Longer than any answer that stands on the stack: each number of it is 20 times as long as it is written.
GROWS = "LINESTRING(%s)" % ",".join(["1e19 2"] * 24), "LINESTRING(%s)" % ",".join(["10000000000000000000 2"] * 24)
READ.append((GROWS[0], "exponents", GROWS[1]))
READ.append(("SRID=1;" + GROWS[1], "srid", GROWS[1]))


class Dialects(unittest.TestCase):
    def test_texts(self):
        for text, dialect, key in READ:
            for given in (text, text.encode(), bytearray(text.encode())):
                with self.subTest(text=given, dialect=dialect):
                    self.assertEqual(wkt.canonical(given, invalid="null", dialect=dialect), key)
                    self.assertIs(wkt.reads(given, dialect=dialect), key is not None)
                    same = wkt.same(given, key or "POINT(1 2)", invalid="null", dialect=dialect)
                    self.assertEqual(same, key and True)
                    why = wkt.explain(given, dialect=dialect)
                    if key is None:
                        with self.assertRaises(wkt.WktError) as raised:
                            wkt.canonical(given, dialect=dialect)
                        self.assertEqual(raised.exception.explanation, why)
                        with self.assertRaises(wkt.WktError):
                            wkt.front(given, dialect=dialect)
                    else:
                        self.assertIsNone(why)
                        self.assertEqual(wkt.front(text + ", x", dialect=dialect), wkt.Front(key, len(text)))
                        self.assertEqual(wkt.read_events(given, dialect=dialect), wkt.read_events(key))

    def test_lists(self):
        """Each list answers as the calls for one text do."""
        for dialect in sorted({dialect for _, dialect, _ in READ} | {ALL, ""}):
            texts = [text for text, _, _ in READ] + [None, b"POINT(1 2 3)", "POINT(1 2)\ud800"]
            one = {"dialect": dialect, "invalid": "null"}
            keys = [None if text is None else wkt.canonical(text, **one) for text in texts]
            self.assertEqual(wkt.canonical(texts, **one), keys)
            made, statuses = wkt.canonical_column(texts, dialect=dialect)
            self.assertEqual((made, [status == 0 for status in statuses]), (keys, [key is not None for key in keys]))
            self.assertEqual(wkt.reads(texts, dialect=dialect), [key is not None for key in keys])
            self.assertEqual(wkt.same(texts, keys, **one), [key and True for key in keys])
            other = "POINT Z(1 2 3)"
            self.assertEqual(wkt.same(texts, other, **one), [key and key == other for key in keys])
            self.assertEqual(wkt.read_events(texts, **one), wkt.read_events(keys))
            for text, why in zip(texts[:-2], wkt.explain(texts, dialect=dialect)):
                self.assertEqual(why, None if text is None else wkt.explain(text, dialect=dialect))
            arrays = wkt.to_arrays(texts, 6, **one)
            column = wkt.to_arrays_column(texts, 6, dialect=dialect)
            for i, text in enumerate(texts):
                each = None if text is None else wkt.to_arrays(text, 6, **one)
                self.assertEqual(str(arrays[i]), str(each))
                self.assertEqual(column.statuses[i] == 0, each is not None)
                if each is not None:
                    self.assertEqual(str(column.row(i)), str(each))
            with self.assertRaises(wkt.WktError) as raised:
                wkt.canonical(texts, dialect=dialect)
            self.assertEqual(raised.exception.row, keys.index(None))

    def test_what_is_read_without_keeps_its_key(self):
        texts = ["point(1 2.50)", "POLYGON(EMPTY,(1 2))", "GEOMETRYCOLLECTION ZM(POINT M EMPTY)", "POINT( 1 2 )"]
        self.assertEqual(wkt.canonical(texts, dialect=ALL), wkt.canonical(texts))
        self.assertEqual(str(wkt.to_arrays(texts[1], dialect=ALL)), str(wkt.to_arrays(texts[1])))

    def test_the_grammar_is_the_default(self):
        """No call reads a dialect unasked, and those of lines take none."""
        for text, _, _ in READ:
            self.assertIs(wkt.reads(text), False, text)
            self.assertEqual(wkt.lines(text), b"refused\n")
            out = io.BytesIO()
            wkt.stream(io.BytesIO(text.encode()), out)
            self.assertEqual(out.getvalue(), b"refused\n")

    def test_whole(self):
        for text, end in (("SRID=1;POINT(1 2 3)  x", 19), ("POINT(1e1 2) x", 12)):
            with self.assertRaises(wkt.WktError) as raised:
                wkt.canonical(text, dialect=ALL)
            self.assertEqual((raised.exception.status, raised.exception.explanation.stop), (30, len(text)))
            self.assertEqual(wkt.front(text, dialect=ALL).end, end)
            wkt.canonical(text, whole=False, dialect=ALL)

    def test_places_are_those_of_the_text(self):
        for text, start, stop in (
            ("SRID=1; POINT M(1 2 3 4)", 22, 23), ("SRID=1; POINT(1 2 3 4", 21, 21), ("POINT( nan nan 3)", 7, 10),
            ("SRID=1;SRID=1;POINT(1 2)", 7, 19), ("MULTIPOINT(nan nan, 1e-19 2)", 20, 25),
        ):  # fmt: skip
            found = wkt.explain(text, dialect=ALL)
            self.assertEqual((found.start, found.stop), (start, stop), text)

    def test_numbers_with_exponents(self):
        for number, has in (("1.50e-19", 20), ("12e-20", 20), ("1200e-22", 20), ("-0.00100e-17", 20), ("1E-20", 20)):
            why = wkt.explain("POINT(%s 2)" % number, dialect="exponents")
            self.assertEqual(why.hint, "%s has %d places, at most 18 are allowed" % (number, has))
        why = wkt.explain("POINT(1e-%s 2)" % ("9" * 5000), dialect="exponents")
        self.assertIn("has too many places, at most 18 are allowed", why.hint)

    def test_errors(self):
        texts, column = ("POINT(1 2)", b"POINT(1 2)"), (["POINT(1 2)"],)
        for call, its in (
            *((it, texts + column) for it in (wkt.canonical, wkt.reads, wkt.explain, wkt.to_arrays, wkt.read_events)),
            (wkt.front, texts), (wkt.canonical_column, column), (wkt.to_arrays_column, column),
            (lambda it, dialect: wkt.same(it, "POINT(1 2)", dialect=dialect), texts + column),
        ):  # fmt: skip
            for given in its:
                with self.assertRaisesRegex(ValueError, "a dialect is one of srid, untagged, .*, and not 'ekwt'"):
                    call(given, dialect="srid,ekwt")
                with self.assertRaisesRegex(TypeError, "dialect is a str such as 'ewkt,exponents', and not int"):
                    call(given, dialect=512)
        for wrong in ("SRID", "srid,", ",", "srid;nan"):
            with self.assertRaises(ValueError):
                wkt.canonical("POINT(1 2)", dialect=wrong)
        with self.assertRaises(wkt.WktError):
            wkt.canonical("POINT(1 2)", 37, dialect="srid")
        # The bits of C aren't taken as places.
        for bits in (512, 18 + 256):
            with self.assertRaises(wkt.WktError):
                wkt.canonical("POINT(1 2)", bits)

    def test_srid(self):
        for text, number in (
            ("SRID=4326;POINT(1 2)", 4326), (" \n srid=007;x", 7), ("SRID=0;", 0), ("SRID=999999999;", 999999999),
            ("SRID=1234567890;", None), ("SRID=;", None), ("SRID= 1;", None), ("SRID=1 ;", None), ("SRID=-1;", None),
            ("POINT(1 2)", None), ("", None), ("SRID=1", None), (" SRID =1;", None),
        ):  # fmt: skip
            for given in (text, text.encode(), memoryview(text.encode())):
                self.assertEqual(wkt.srid(given), number, given)
        self.assertEqual(wkt.srid(["SRID=5;x", None, b"SRID=6;", "POINT(1 2)"]), [5, None, 6, None])
        for wrong in (3, None, 1.5):
            with self.assertRaises(TypeError):
                wkt.srid(wrong)
        with self.assertRaisesRegex(TypeError, "row 1: "):
            wkt.srid(["SRID=1;", 2])
        if pandas is not None:
            made = wkt.srid(pandas.Series(["SRID=5;POINT(1 2)", None, "x"], index=[3, 4, 5], name="geom"))
            self.assertEqual((made.name, made.index.tolist(), made.dtype.name), ("geom", [3, 4, 5], "Int64"))
            self.assertEqual(made.dropna().tolist(), [5])

    def test_pandas(self):
        if pandas is None:
            self.skipTest("no pandas")
        import wkt.pandas

        texts = pandas.Series(["SRID=1;POINT(1 2)", "point(1 2.0)", "POINT(1e0 2)", None, "POINT(1 x)"])
        self.assertEqual(texts.wkt.canonical(invalid="null", dialect=ALL).tolist(), 3 * ["POINT(1 2)"] + [None, None])
        self.assertEqual(texts.wkt.reads(dialect="srid").tolist(), [True, True, False, False, False])
        self.assertEqual(texts.wkt.same("POINT(1 2)", invalid="null", dialect=ALL)[:3].tolist(), [True] * 3)
        self.assertEqual(texts.wkt.refusals(dialect=ALL).index.tolist(), [4])
        self.assertEqual([it is None for it in texts.wkt.explain(dialect=ALL)], [True] * 4 + [False])
        self.assertEqual(list(texts.wkt.to_arrays_column(dialect="exponents").statuses), [3, 0, 0, 28, 9])
        frame = pandas.DataFrame({"geom": texts, "n": range(5)})
        self.assertEqual(wkt.pandas.drop_duplicates(frame, "geom", dialect=ALL).n.tolist(), [0, 3, 4])
        self.assertEqual(wkt.pandas.groupby(frame, "geom", dialect=ALL).n.sum().tolist(), [3])
        self.assertEqual(wkt.pandas.merge(frame, frame, "geom", dialect=ALL).shape[0], 9)
        read = wkt.pandas.read_csv(io.StringIO("geom\nSRID=1;POINT(1 2)\n"), wkt="geom", dialect="srid")
        self.assertEqual(read.geom.tolist(), ["POINT(1 2)"])

    def test_arrays_of_bytes_and_arrow(self):
        if numpy is None:
            self.skipTest("no NumPy")
        texts = [b"SRID=1;POINT(1 2)", b"POINT(1e3 2)", b"POINT(1 2 3)", b"POINT(1 x)"]
        keys = [b"POINT(1 2)", b"POINT(1000 2)", b"POINT Z(1 2 3)", b""]
        made = wkt.canonical(numpy.array(texts), invalid="null", dialect=ALL)
        self.assertEqual(made.tolist(), keys)
        self.assertEqual(wkt.reads(numpy.array(texts), dialect=ALL).tolist(), [True, True, True, False])
        self.assertEqual(list(wkt.to_arrays_column(numpy.array(texts), dialect=ALL).statuses), [0, 0, 0, 9])
        if calls is wkt._slow:
            self.skipTest("no fast module")
        ends = numpy.cumsum([0] + list(map(len, texts)))
        data, statuses = numpy.frombuffer(b"".join(texts), numpy.uint8), numpy.zeros(4, numpy.uint32)
        indices = numpy.array([1, 0, 2, 1], numpy.int32)
        for chosen in (None, indices):
            column = wkt.ArrowTexts(data, ends, statuses, None, chosen)
            wanted = [keys[i].decode() or None for i in (range(4) if chosen is None else chosen.tolist())]
            made = wkt.canonical(column, invalid="null", dialect=ALL)
            self.assertEqual(made.to_pylist(), wanted)
            made = list(wkt.batches(column, invalid="null", dialect=ALL))
            self.assertEqual([batch.to_pylist() for batch in made], [wanted])
            self.assertEqual(wkt.reads(column, dialect=ALL).tolist(), [it is not None for it in wanted])

    def test_table(self):
        with tempfile.TemporaryDirectory() as folder:
            path = os.path.join(folder, "a.csv")
            with open(path, "w", encoding="utf-8") as file:
                file.write("id,geom\n1,SRID=4326;POINT(1 2)\n2,POINT(1e0 2)\n3,POINT(1 2 x)\n")
            words = [sys.executable, "-m", "wkt.table", path, "--column", "geom"]
            run = subprocess.run([*words, "--dialect", "ewkt,exponents"], capture_output=True, text=True, check=False)
            self.assertEqual(run.returncode, 1)
            self.assertEqual(
                run.stdout, "key,id,geom\nPOINT(1 2),1,SRID=4326;POINT(1 2)\nPOINT(1 2),2,POINT(1e0 2)\n"
            )
            self.assertIn("row 3: at 11: ", run.stderr)
            run = subprocess.run([*words, "--dialect", "wkt"], capture_output=True, text=True, check=False)
            self.assertEqual(run.returncode, 2)
            self.assertIn("a dialect is one of srid, untagged, exponents, nan, ewkt, and not 'wkt'", run.stderr)
            run = subprocess.run(words, capture_output=True, text=True, check=False)
            self.assertEqual((run.returncode, run.stdout), (1, "key,id,geom\n"))


class Events(unittest.TestCase):
    def test_events(self):
        for text, events, numbers in (
            ("POINT EMPTY", [("Point", "XY"), 0, None], []),
            ("point zm (1 -2 3 4)", [("Point", "XYZM"), 1, None], [1, -2, 3, 4]),
            ("MULTIPOLYGON(((1 2,3 4)),EMPTY)", [
                ("MultiPolygon", "XY"), ("Polygon", "XY"), 2, None, ("Polygon", "XY"), None, None], [1, 2, 3, 4]),
            ("MULTIPOINT M(EMPTY,(1 2 3))", [("MultiPoint", "XYM"), 0, 1, None], [1, 2, 3]),
            ("GEOMETRYCOLLECTION(POINT Z(1 2 3),GEOMETRYCOLLECTION EMPTY,LINESTRING(1 2,3 4,5 6))", [
                ("GeometryCollection", "XY"), ("Point", "XYZ"), 1, None, ("GeometryCollection", "XY"), None,
                ("LineString", "XY"), 3, None, None], [1, 2, 3, 1, 2, 3, 4, 5, 6]),
            ("MULTILINESTRING((1 2),EMPTY,(3 4,5 6))", [("MultiLineString", "XY"), 1, 0, 2, None], [1, 2, 3, 4, 5, 6]),
            ("POLYGON(EMPTY,(1 2))", [("Polygon", "XY"), 0, 1, None], [1, 2]),
        ):  # fmt: skip
            for places in (0, 5):
                found = wkt.read_events(text, places)
                self.assertEqual(found, wkt.Events(events, [n * 10**places for n in numbers], places))
            one = wkt.Events(events, numbers, 0)
            self.assertEqual(wkt.read_events([text, None, text.encode()], 0), [one, None, one])

    def test_numbers_are_exact(self):
        """By Python's own ints, at the ends of 64 and of 128 bits."""
        most = 2**127
        for units in (0, 1, -1, 2**63 - 1, 2**63, 2**63 + 1, -(2**63), -(2**63) - 1, 2**64 - 1, 2**64, -(2**64),
                      most - 1, -most, 10**38, -(10**38), 123456789 * 10**28):  # fmt: skip
            for places in (0, 1, 18, 36):
                digits = str(abs(units)).rjust(places + 1, "0")
                number = ("-" if units < 0 else "") + digits[: len(digits) - places]
                number += "." + digits[len(digits) - places :] if places else ""
                text = "POINT(%s 0)" % number
                self.assertEqual(wkt.read_events(text, places).numbers, [units, 0], text)
        with self.assertRaises(wkt.WktError):
            wkt.read_events("POINT(%d 0)" % most, 0)

    def test_long(self):
        """More of each list than is reserved at first, and text that releases the interpreter."""
        line = "LINESTRING(%s)" % ",".join(["1 2"] * 9000)
        self.assertEqual(wkt.read_events(line, 0).numbers, [1, 2] * 9000)
        empty = "GEOMETRYCOLLECTION(%s)" % ",".join(["POINT EMPTY"] * 3000)
        self.assertEqual(len(wkt.read_events(empty, 0).events), 2 + 3 * 3000)
        deep = "GEOMETRYCOLLECTION(" * 5000 + "POINT(1 2)" + ")" * 5000
        self.assertEqual(wkt.read_events(deep, 0).events.count(None), 5001)
        points = "MULTIPOINT(%s)" % ",".join(["1 2"] * 5000)
        self.assertEqual(wkt.read_events(points, 0).events[1:-1], [1] * 5000)

    def test_refused(self):
        texts = ["POINT(1 2)", "POINT(1", None, "POINT(1 2) x", "POINT(0.1 2)"]
        for text in texts[1:2] + texts[3:]:
            with self.assertRaises(wkt.WktError) as raised:
                wkt.read_events(text, 0)
            with self.assertRaises(wkt.WktError) as other:
                wkt.canonical(text, 0)
            self.assertEqual(raised.exception.status, other.exception.status)
            self.assertEqual(str(raised.exception), str(other.exception))
            self.assertIsNone(wkt.read_events(text, 0, "null"))
        for whole, has in ((True, [1, 0, 0, 0, 0]), (False, [1, 0, 0, 1, 0])):
            self.assertEqual([it is not None for it in wkt.read_events(texts, 0, "null", whole=whole)], has)
        with self.assertRaisesRegex(wkt.WktError, "row 1: at 8: "):
            wkt.read_events(texts)
        for wrong in (3, None):
            with self.assertRaises(TypeError):
                wkt.read_events(wrong)
        for wrong in ("keep", "x"):
            with self.assertRaises(ValueError):
                wkt.read_events("POINT(1 2)", invalid=wrong)
        done = []
        wkt.read_events(["POINT(1 2)"] * 3, progress=done.append)
        self.assertEqual(done, [3])


if __name__ == "__main__":
    unittest.main()
