"""Whole texts and fronts, explanations, and what errors say."""
import ctypes
import importlib
import io
import os
import pickle
import unittest
import unittest.mock

import wkt
from modules import installed, patched

numpy = installed("numpy")

TEXTS = ["point ( 1 2.50 )", None, "POINT(3 4)", "PINT(5 6)", "MultiPoint(1 2)"]


class Whole(unittest.TestCase):
    def test_texts(self):
        for text in ("POINT(1 2)", "point(1 2) \r\n\t", b"point(1 2)\n"):
            self.assertEqual(wkt.canonical(text, whole=True), "POINT(1 2)")
            self.assertIs(wkt.reads(text, whole=True), True)
        for text in ("POINT(1 2) x", "POINT(1 2)POINT(3 4)", b"POINT(1 2)\0"):
            for call in (wkt.canonical, wkt.to_arrays, lambda it, whole: wkt.same("POINT(1 2)", it, whole=whole)):
                call(text, whole=False)
                with self.assertRaises(wkt.WktError) as raised:
                    call(text, whole=True)
                self.assertEqual(raised.exception.status, 30)
            self.assertIs(wkt.reads(text, whole=True), False)
        with self.assertRaises(TypeError):
            wkt.canonical("POINT(1 2)", whole=1)

    def test_fronts(self):
        """The geometry that a text begins with, and where it ends: in characters of a str as in bytes."""
        long = "LINESTRING(%s)" % ",".join(["1 2"] * 3000)
        for text, rest, answer in (
            ("point ( 1 2.0 )", "", "POINT(1 2)"), (" point(1 2)", ", POINT(3 4)", "POINT(1 2)"),
            ("POINT EMPTY", " \u00e4\u00f6", "POINT EMPTY"), ("POINT(1 2)", "\U0001f600", "POINT(1 2)"),
            (long, "\u00e4" * 100, long),
        ):  # fmt: skip
            for given in (text + rest, (text + rest).encode(), bytearray((text + rest).encode())):
                self.assertEqual(wkt.front(given), wkt.Front(answer, len(text)))
        text, keys = "POINT(1 2), POINT EMPTY, point(3 4.0)", []
        while text:
            found = wkt.front(text, places=1)
            keys.append(found.canonical)
            text = text[found.end :].lstrip(", ")
        self.assertEqual(keys, ["POINT(1 2)", "POINT EMPTY", "POINT(3 4)"])
        for call, error in (
            (lambda: wkt.front("POINT(1 2.55) x", places=1), wkt.WktError), (lambda: wkt.front("x"), wkt.WktError),
            (lambda: wkt.front("POINT(1 2)", 37), wkt.WktError), (lambda: wkt.front("POINT(1 2)", 1.0), TypeError),
            (lambda: wkt.front(["POINT(1 2)"]), TypeError), (lambda: wkt.front(None), TypeError),
            (lambda: wkt.front("POINT(1 2)\ud800"), wkt.WktError),
        ):  # fmt: skip
            with self.assertRaises(error):
                call()

    def test_columns(self):
        texts = ["point(1 2) ", None, "POINT(1 2) x", "x"]
        answers, statuses = wkt.canonical_column(texts, whole=True)
        self.assertEqual((answers, statuses), (["POINT(1 2)", None, None, None], [0, 28, 30, 3]))
        self.assertEqual(wkt.reads(texts, whole=True), [True, False, False, False])
        self.assertEqual(wkt.canonical(texts, invalid="keep", whole=True), ["POINT(1 2)", None, "POINT(1 2) x", "x"])
        self.assertEqual(list(wkt.to_arrays_column(texts, whole=True).statuses), [0, 28, 30, 3])
        self.assertEqual(wkt.same(texts, texts, invalid="null", whole=True), [True, None, None, None])
        with self.assertRaises(wkt.WktError) as raised:
            wkt.canonical(texts, whole=True)
        self.assertEqual((raised.exception.row, raised.exception.status), (2, 30))
        self.assertEqual(str(raised.exception), "row 2: at 12: the end of the text was expected, and not x")
        self.assertEqual([it and it.status for it in wkt.explain(texts)], [None, None, 30, 3])

    def test_whole_is_the_default(self):
        text, column = "POINT(1 2) junk", ["POINT(1 2) junk"]
        for call in (wkt.canonical, wkt.to_arrays, lambda it, **more: wkt.same(it, it, **more)):
            for given in (text, column):
                with self.assertRaises(wkt.WktError) as raised:
                    call(given)
                self.assertEqual(raised.exception.status, 30)
                call(given, whole=False)
        self.assertEqual((wkt.reads(text), wkt.reads(text, whole=False)), (False, True))
        self.assertEqual(wkt.canonical_column(column), ([None], [30]))
        self.assertEqual(list(wkt.to_arrays_column(column).statuses), [30])
        found = wkt.explain("pöint(1 2)")
        self.assertEqual((found.start, found.stop), (0, 5))
        for given, at in (
            (text, (11, 15)),
            ("POINT(1 2)  \n \u00e4\u00f6", (14, 16)),
            ("POINT(1 2)  \n \u00e4".encode(), (14, 16)),
        ):
            found = wkt.explain(given)
            self.assertEqual((found.status, found.message), (30, "More than white space follows the geometry"))
            self.assertEqual(((found.start, found.stop), found.expected), (at, "the end of the text"))
            self.assertIsNone(wkt.explain(given, whole=False))
        # Lines are answered by their fronts, as by the program wktstream.
        sink = io.BytesIO()
        wkt.stream(io.BytesIO(text.encode()), sink)
        self.assertEqual(
            (sink.getvalue(), wkt.lines(text), wkt.lines(column)), (b"POINT(1 2)\n", b"POINT(1 2)\n", ["POINT(1 2)"])
        )


class Words(unittest.TestCase):
    def test_explanations(self):
        found = wkt.explain("LINESTRING(1 2,3 x)")
        self.assertEqual((found.start, found.stop, found.expected), (17, 18, "a second number"))
        self.assertEqual((found.line, found.column), (1, 18))
        self.assertEqual(str(found), "LINESTRING(1 2,3 x)\n                 ^ a second number was expected")
        self.assertIsNone(wkt.explain("POINT(1 2) and more", whole=False))
        self.assertEqual(
            wkt.explain("POINT(1 2.55)", places=1).message, "Unable to parse input number as the desired output type"
        )
        found = wkt.explain("POINT(\n\t1.x")
        self.assertEqual((found.line, found.column), (2, 2))
        self.assertEqual(str(found).split("\n")[1], "\t^^^ a first number was expected")
        # Characters of a str, and bytes of bytes.
        text = "PÖINT"
        self.assertEqual((wkt.explain(text).stop, wkt.explain(text.encode()).stop), (5, 6))
        self.assertEqual(str(wkt.explain(text)), str(wkt.explain(text.encode())))
        self.assertEqual(pickle.loads(pickle.dumps(found)), found)
        with self.assertRaises(wkt.WktError) as raised:
            wkt.explain(b"\xff")
        self.assertEqual(raised.exception.status, 20)

    def test_codes(self):
        """One stable word says why: a hint's, or what was expected, as docs/names.tsv has them."""
        cases = [
            ("\ufeffPOINT(1 2)", "byte_order_mark"), ("0101000000", "hexadecimal"), ("SRID=4326;POINT(1 2)", "srid"),
            ("CIRCULARSTRING(1 2)", "curve"), ("TIN EMPTY", "surface"), ("POINT(1e5 2)", "exponent"),
            ("POINT(nan 2)", "no_number"), ("POINT(1.1234567 2)", "places"), ("POINT(%s 2)" % ("9" * 40), "large"),
            ("POINT(1 2 3)", "dimension"), ("POINT()", "empty"), ("POINT(1,5 2,5)", "comma"), ("NULL", "missing"),
            ("'POINT(1 2)'", "quotes"), ("POINT(1\u00a02)", "no_break_space"), ("POINT(\u22121 2)", "minus"),
            ("BOX(1 2,3 4)", "box"), ('{"type":"Point"}', "braces"), ("(1 2)", "no_kind"), ("POINT 1 2", "parenthesis"),
            ("POINT(1 2) x", "not_whole"),
            ("", "expected_kind"), ("GEOMETRYCOLLECTION(x", "expected_member"), ("POINT x", "expected_dimension"),
            ("POINT Z x", "expected_opening"), ("MULTIPOINT(x", "expected_point"), ("LINESTRING(x", "expected_x"),
            ("POINT(1", "expected_y"), ("POINT Z(1 2", "expected_z"), ("POINT M(1 2", "expected_m"),
            ("LINESTRING(1 2", "expected_more"), ("POINT(1 2", "expected_closing"),
        ]  # fmt: skip
        for text, code in cases:
            for given in (text, text.encode()):
                self.assertEqual(wkt.explain(given, places=6).code, code, text)
        self.assertEqual(wkt.explain("POINT(180 2)", places=36).code, "fewer")
        self.assertEqual({"fewer", *(code.replace("expected_", "") for _, code in cases)} - {"not_whole"},
                         {*wkt._names.HINT_WORDS[1:], *wkt._names.EXPECTED_WORDS})  # fmt: skip

    def test_long_lines(self):
        text = "LINESTRING(" + ",".join(["1 2"] * 1000) + ",3 x," + ",".join(["1 2"] * 1000) + ")"
        line, marks = str(wkt.explain(text)).split("\n")
        self.assertLess(len(line), 90)
        self.assertEqual(line[marks.index("^")], "x")

    def test_columns_of_explanations(self):
        found = wkt.explain(TEXTS + [b"\xff"])
        self.assertEqual(
            [it and it.expected for it in found], [None, None, None, "a kind of geometry, such as POINT,", None, None]
        )

    def test_errors_say_where(self):
        with self.assertRaises(wkt.WktError) as raised:
            wkt.canonical(["POINT(1 2)", "LINESTRING(1 2,3 x)"])
        error = raised.exception
        self.assertEqual((error.row, error.explanation.start, error.explanation.expected), (1, 17, "a second number"))
        self.assertEqual(error.message, "Expected a number for the Y coordinate")
        self.assertEqual(str(error), "row 1: at 18: a second number was expected, and not x")
        cases = [
            ("POINT(1", "at 8: a second number was expected, but the text ends"),
            ("POINT(\n1 x)", "at line 2, column 3: a second number was expected, and not x"),
            ("PINT" * 100, "at 1: a kind of geometry, such as POINT, was expected, and not " + "PINT" * 9 + "P..."),
        ]
        for text, words in cases:
            with self.assertRaises(wkt.WktError) as raised:
                wkt.canonical(text)
            self.assertEqual(str(raised.exception), words)

    def test_what_is_not_printable(self):
        """It stands in no message as it is."""
        cases = [("\x1b[2J", "\\x1b[2J"), ("\x00", "\\x00"), ("\x7f", "\\x7f"), ("\x9b31m", "\\u{9b}31m"),
                 ("\x85", "\\u{85}"), ("\u202ehidden", "\\u{202e}hidden"), ("a\u2066b\u2069", "a\\u{2066}b\\u{2069}"),
                 ("\u200f", "\\u{200f}"), ("\u061c", "\\u{61c}"), ("x\u2028y", "x\\u{2028}y"), ("\xa0", "\\u{a0}"),
                 ("\x0b\x1c", "\\x0b\\x1c"), ("\U000e0041", "\\u{e0041}"), ("\xe4\u4e2d", "\xe4\u4e2d"),
                 ("\u3164\ufe0f\U000e0100", "\\u{3164}\\u{fe0f}\\u{e0100}")]  # fmt: skip
        for raw, shown in cases:
            for front, back in (("POINT(1 ", " 2)"), ("POINT(1 2)", ""), ("", "POINT(1 2)"), ("POINT(1 2)\n", "")):
                text = front + raw + back
                errors = []
                for given in (text, text.encode(), [text], [None, text.encode()]):
                    with self.assertRaises(wkt.WktError) as raised:
                        wkt.canonical(given)
                    errors.append(raised.exception)
                why = wkt.explain(text)
                self.assertEqual(text[why.start : why.stop], why.text[why.start : why.stop])
                said = [why.cause, why.hint, str(why).replace("\n", "").replace("\t", ""), repr(why)]
                for words in said + [form(error) for error in errors for form in (str, repr)]:
                    self.assertTrue(words.isprintable(), (raw, words))
                self.assertEqual([str(errors[0]), str(errors[1])], [why.cause] * 2)
                if front and why.start < why.stop and not why.hint:  # a 0 byte ends the text
                    self.assertTrue(why.cause.endswith("and not " + shown), (raw, why.cause))
                self.assertEqual([text.count("\n", 0, why.start) + 1, str(why).count("\n")], [why.line, 1])

        self.assertTrue(wkt.explain("POINT(1 2) a\r\n\tb").cause.endswith("and not a b"))

    def test_marks(self):
        """The mark stands below the place, also behind what is shown by its number, and where CR LF ends the line."""
        cases = [
            ("POINT(\x1b 2)", "POINT(\\x1b 2)", 6, 4),
            ("\u202ePOINT(1 2)", "\\u{202e}POINT(1 2)", 0, 13),
            ("POINT(1 2) \x9b x\r\nPOINT", "POINT(1 2) \\u{9b} x", 11, 8),
            ("POINT(1 x\r\n)", "POINT(1 x", 8, 1),
            ("POINT(1 \r\n)", ")", 0, 1),
            ("POINT\r(1 x)", "POINT\\x0d(1 x)", 12, 1),
            ("POINT(1" + " " * 80 + "x", "..." + " " * 36 + "x", 39, 1),
            ("POINT(1" + " " * 66, "..." + " " * 36, 39, 1),
        ]
        for text, shown, at, length in cases:
            line, under = str(wkt.explain(text)).split("\n")
            mark = under[: under.rindex("^") + 1]
            self.assertEqual((line, mark), (shown, " " * at + "^" * length), text)

    def test_errors_say_why(self):
        """The cause comes first, where it is known; the message of the Rust crate is an attribute."""
        cases = [
            ("POINT(1.1234567 2)", "at 7: 1.1234567 has 7 places, at most 6 are allowed", 7),
            ("POINT(1 -1.123456700)", "at 9: -1.123456700 has 7 places, at most 6 are allowed", 13),
            ("POINT(1e-7 2)", "at 7: exponents are not read; write 0.0000001 for 1e-7", 7),
            ("SRID=4326;POINT(1 2)", "at 1: SRID=..; of EWKT is not read; ST_AsText leaves it out", 3),
            ("CIRCULARSTRING(1 2,3 4,5 6)", "at 1: curves are not read; ST_CurveToLine gives lines", 3),
            ("POINT(1 2 3)", "at 11: a third number needs Z or M, as in POINT Z(1 2 3), and a fourth ZM", 7),
            ("POINT(%s 2)" % ("9" * 50), "at 7: the number is too large", 7),
            ("POINT(nan nan)", "at 7: NaN and infinity are no decimals; EMPTY says that there is no point", 7),
            ("POINT()", "at 7: what holds nothing is written EMPTY, without parentheses", 7),
            ("\ufeffPOINT(1 2)", "at 1: the text begins with a byte order mark", 2),
            ("POINT(1,2)", "at 8: commas separate coordinates, and spaces their numbers; decimals have a point", 7),
            ("None", "at 1: NULL, None and nan are not read; leave the row out, or write POINT EMPTY", 3),
            ("POINT(1\xa02)", "at 7: a no-break space is not read as a space; write a plain one", 13),
        ]
        for text, words, status in cases:
            for call in (wkt.canonical, wkt.to_arrays, lambda it, places: wkt.same(it, it, places)):
                with self.assertRaises(wkt.WktError) as raised:
                    call(text, 6)
                self.assertEqual((str(raised.exception), raised.exception.status), (words, status))
            self.assertTrue(words.endswith(wkt.explain(text, 6).hint))
            self.assertIn("(%s)" % wkt.explain(text, 6).hint, str(wkt.explain(text, 6)))

    def test_reads(self):
        self.assertIs(wkt.reads("POINT(1 2)"), True)
        self.assertIs(wkt.reads("POINT(1 2.55)", places=1), False)
        self.assertIs(wkt.reads(b"\xff"), False)
        self.assertEqual(wkt.reads(TEXTS), [True, False, True, False, True])
        self.assertFalse(hasattr(wkt, "is_valid"))
        if numpy is not None:
            made = wkt.reads(numpy.array(TEXTS, object))
            self.assertEqual((made.dtype, made.tolist()), (numpy.dtype(bool), [True, False, True, False, True]))

    def test_version(self):
        with open(
            os.path.join(os.path.dirname(os.path.abspath(__file__)), os.pardir, os.pardir, "include", "wkt.h"),
            encoding="utf-8",
        ) as file:
            # Between releases a package that is built also says its commit.
            version = wkt.__version__.split("+")[0].replace(".dev0", "-dev")
            self.assertIn('#define WKT_VERSION "%s"' % version, file.read())

    def test_documented(self):
        for name in wkt.__all__:
            if not name.startswith("__") and name.islower():
                self.assertGreater(len(getattr(wkt, name).__doc__), 80, name)

    def test_help(self):
        """`help` says something of each public name, and of each method of each class."""
        public = {name: getattr(wkt, name) for name in wkt.__all__}
        for name, needs in (("pandas", "pandas"), ("dask", "dask.dataframe")):
            if installed(needs) is not None:
                public.update(vars(importlib.import_module("wkt." + name)))
        for name, value in public.items():
            if name.startswith("_") or not callable(value) or not value.__module__.startswith("wkt"):
                continue
            self.assertTrue(value.__doc__, name)
            for part, its in vars(value).items() if isinstance(value, type) else ():
                self.assertTrue(part.startswith("_") or its.__doc__, (name, part))


class Later(unittest.TestCase):
    """A later library may have statuses, expectations and hints that this package doesn't know."""

    def test_places_in_texts(self):
        def put(value, at):
            ctypes.c_uint32.from_address(at).value = value

        def explain(status, *given):
            put(15, given[3])
            put(11, given[6])

        def hint(status, *given):
            put(99, given[3])

        with patched("wkt_explain", explain), patched("wkt_hint", hint):
            for text, places in (("POINT(1 x)", 18), ("POINT(1 2.55)", 1)):
                found = wkt.explain(text, places)
                self.assertEqual((found.status, found.message, found.hint), (15, "Status 15", ""))
                self.assertEqual((found.expected, found.code), ("something else (11)", "hint_99"))
                self.assertIn("^ something else (11) was expected", str(found))
                for call in (wkt.canonical, wkt.to_arrays, lambda it, places: wkt.same(it, it, places)):
                    for given, row in ((text, ""), ([None, text], "row 1: ")):
                        with self.assertRaises(wkt.WktError) as raised:
                            call(given, places)
                        wanted = "%sat 9: something else (11) was expected, and not %s" % (row, text[8:-1])
                        self.assertEqual(str(raised.exception), wanted)
        with patched("wkt_explain", explain), patched("wkt_hint", lambda status, *given: put(0, given[3])):
            self.assertEqual(wkt.explain("POINT(1 x)").code, "expected_other")

    def test_statuses(self):
        def refused(status, *given):
            return 34 if 1 <= status <= 14 else None

        def column(at):
            def change(status, *given):
                statuses = (ctypes.c_uint32 * given[at + 1]).from_address(given[at])
                statuses[:] = [refused(it) or it for it in statuses]

            return change

        calls = dict.fromkeys(["wkt_canonical", "wkt_same", "wkt_infer", "wkt_arrays"], refused)
        calls.update(wkt_column_canonical=column(11), wkt_column_arrays=column(24), wkt_explain=lambda *given: 34)
        calls["wkt_message"] = lambda words, status: b"A reason of tomorrow"
        for name, change in calls.items():
            changed = patched(name, change)
            changed.__enter__()
            self.addCleanup(changed.__exit__, None, None, None)
        texts = ["POINT(1 2)", None, "PINT(1)"]
        for call in (wkt.canonical, wkt.to_arrays, lambda it: wkt.same(it, "POINT(1 2)"), wkt.infer):
            for given in (texts[2], texts):
                with self.assertRaises(wkt.WktError) as raised:
                    call(given)
                error = raised.exception
                self.assertEqual((error.status, error.message), (34, "A reason of tomorrow"))
                self.assertTrue(str(error).endswith("A reason of tomorrow"))
        self.assertEqual(wkt.canonical(texts, invalid="keep"), texts)
        self.assertEqual(wkt.canonical_column(texts), (["POINT(1 2)", None, None], [0, 28, 34]))
        self.assertEqual((wkt.reads(texts), wkt.reads(texts[2])), ([True, False, False], False))
        self.assertEqual(wkt.explain(texts), [None] * 3)
        with self.assertRaises(wkt.WktError):
            wkt.explain(texts[2])

    def test_versions(self):
        for version, numbers in (("1.0.0", [1, 0, 0]), ("1.10.0-rc.1", [1, 10, 0]), ("2.0.0+build5", [2, 0, 0])):
            self.assertEqual(wkt._library._numbers(version), numbers)


if __name__ == "__main__":
    unittest.main()
