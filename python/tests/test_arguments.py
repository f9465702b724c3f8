"""What the functions take and refuse: numbers, places, rows, texts; errors in other processes; arrays that change."""
import array
import concurrent.futures
import copy
import ctypes
import decimal
import fractions
import pickle
import threading
import tracemalloc
import unittest
import unittest.mock

import wkt
from modules import installed, patched

numpy, pandas = installed("numpy"), installed("pandas")

POINT = ([0, 1], [0, 1])  # the rings and polygons of a point


def point(numbers, rings=POINT[0], polygons=POINT[1]):
    return wkt.from_arrays(wkt.Arrays("Point", "XY", numbers, rings, polygons), 0)


def column(**changed):
    """Two points as ColumnArrays, of lists, with some of them changed."""
    held = dict(kinds=[0, 0], dimensions=[0, 0], numbers=[1, 2, 3, 4], number_offsets=[0, 2, 4], rings=[0, 1, 0, 1],
                ring_offsets=[0, 2, 4], polygons=[0, 1, 0, 1], polygon_offsets=[0, 2, 4], statuses=[0, 0])  # fmt: skip
    held.update(changed)
    return wkt.ColumnArrays(**held)


def refuse(text):
    """What a worker of another process does."""
    return wkt.canonical(text)


def refuse_row(texts):
    return wkt.canonical(texts)


class Numbers(unittest.TestCase):
    WRONG = [2.0, 0.57 * 100, True, decimal.Decimal(2), "2", b"2", None, fractions.Fraction(2), 2 + 0j, [2]]

    def test_integers_alone(self):
        self.assertEqual(point([1, 2]), "POINT(1 2)")
        for wrong in self.WRONG:
            with self.assertRaises(TypeError, msg=repr(wrong)):
                point([1, wrong])
            with self.assertRaises(TypeError, msg=repr(wrong)):
                point([1, 2], rings=[0, wrong])
            with self.assertRaises(TypeError, msg=repr(wrong)):
                point([1, 2], polygons=[0, wrong])
        for wrong in ("12", b"12", array.array("d", [1, 2]), 12):
            with self.assertRaises(TypeError, msg=repr(wrong)):
                point(wrong)

    def test_ranges(self):
        least, most = -(2**63), 2**63 - 1
        self.assertEqual(point([least, most]), "POINT(%d %d)" % (least, most))
        for wrong in (2**63, least - 1, 10**30):
            with self.assertRaises(OverflowError):
                point([1, wrong])
        for wrong in (-1, 2**64):
            with self.assertRaises(OverflowError):
                point([1, 2], rings=[0, wrong])
            with self.assertRaises(OverflowError):
                point([1, 2], polygons=[wrong, 1])

    def test_arrays_of_the_standard_library(self):
        for code in "bhilq":
            self.assertEqual(point(array.array(code, [-1, 2])), "POINT(-1 2)")
        for code in "BHILQ":
            self.assertEqual(point(array.array(code, [1, 2])), "POINT(1 2)")
        self.assertEqual(point(memoryview(array.array("q", [1, 2]))), "POINT(1 2)")
        for kind in (ctypes.c_int64, ctypes.c_uint64, ctypes.c_int16, ctypes.c_uint32.__ctype_be__):
            self.assertEqual(point(memoryview((kind * 2)(1, 2))), "POINT(1 2)")
            self.assertEqual(point(memoryview((kind * 4)(1, 0, 2, 0))[::2]), "POINT(1 2)")
        for code in "bhilqBHILQ":
            for numbers in (array.array(code, [1, 2, 3, 4]), memoryview(array.array(code, [1, 0, 2, 0, 3, 0, 4]))[::2]):
                self.assertEqual(wkt.from_arrays_column(column(numbers=numbers), 0)[0], ["POINT(1 2)", "POINT(3 4)"])
        with self.assertRaises(OverflowError):
            point(array.array("Q", [1, 2**63]))
        with self.assertRaises(OverflowError):
            point([1, 2], rings=array.array("q", [0, -1]))

    def test_columns(self):
        self.assertEqual(wkt.from_arrays_column(column(), 0), (["POINT(1 2)", "POINT(3 4)"], [0, 0]))
        for name in wkt.ColumnArrays._fields:
            for wrong in (1.0, True, "1"):
                with self.assertRaises(TypeError, msg=name):
                    wkt.from_arrays_column(column(**{name: [wrong, 0]}), 0)
        for name, wrong in [("kinds", 2**32), ("kinds", -1), ("dimensions", 2**32), ("numbers", 2**63),
                            ("number_offsets", 2**63), ("rings", -1), ("polygons", 2**64)]:  # fmt: skip
            with self.assertRaises(OverflowError, msg=name):
                wkt.from_arrays_column(column(**{name: [wrong, 0]}), 0)

    def test_offsets(self):
        """Offsets and sizes of no column are refused."""
        wrong = {name: ([0], [0, 0, 0], []) for name in ("kinds", "dimensions", "statuses")}
        for name in ("number_offsets", "ring_offsets", "polygon_offsets"):
            wrong[name] = [0, 2, 5], [-1, 2, 4], [0, 3, 2], [0, 2, 2**60], [-(2**63), 2**63 - 1, 4]
            wrong[name] += [0, 2], [0, 2, 4, 4], []
        given = [column(**{name: each}) for name, several in wrong.items() for each in several]
        none = wkt.ColumnArrays([], [], *3 * ([], [0]), [])
        self.assertEqual(wkt.from_arrays_column(none, 0), ([], []))
        given += [none._replace(**{name: each}) for name in list(wrong)[3:] for each in ([1], [-1], [], [0, 0])]
        for each in given:
            with self.assertRaises(wkt.WktError, msg=each) as raised:
                wkt.from_arrays_column(each, 0)
            self.assertEqual(raised.exception.status, 27)
        # What is null or refused is passed over, whatever its arrays are; and no row need use all of them.
        held = column(kinds=[0, 9], number_offsets=[1, 3, 4], numbers=[9, 1, 2, 7, 8])
        self.assertEqual(wkt.from_arrays_column(held, 0), (["POINT(1 2)", None], [0, 26]))
        self.assertEqual(wkt.from_arrays_column(held._replace(statuses=[5, 28]), 0), ([None, None], [28, 28]))

    def test_kinds(self):
        for wrong in (2**32, 0, 1.0, None):
            with self.assertRaises(TypeError):
                wkt.from_arrays(wkt.Arrays(wrong, "XY", [1, 2], *POINT))
            with self.assertRaises(TypeError):
                wkt.from_arrays(wkt.Arrays("Point", wrong, [1, 2], *POINT))
        with self.assertRaises(ValueError):
            wkt.from_arrays(wkt.Arrays("Dot", "XY", [1, 2], *POINT))

    def test_too_few(self):
        arrays = wkt.Arrays("Point", "XY", [1, 2], *POINT)
        rows = [tuple(arrays[:5]), list(arrays[:5]), None, arrays]
        self.assertEqual(wkt.from_arrays(rows, 0), ["POINT(1 2)"] * 2 + [None, "POINT(1 2)"])
        five = "Arrays are kind, dimension, numbers, rings and polygons, and not "
        for count in range(5):
            for given, words in ((arrays[:count], five), ([None, arrays[:count]], "row 1: " + five)):
                with self.assertRaises(TypeError) as raised:
                    wkt.from_arrays(given)
                self.assertEqual(str(raised.exception), words + "%d of them" % count)
        for wrong in ("Point", 5, b"POINT", {"kind": "Point"}):
            with self.assertRaises(TypeError) as raised:
                wkt.from_arrays([arrays, wrong])
            self.assertEqual(str(raised.exception), "row 1: " + five + type(wrong).__name__)
        with self.assertRaises(TypeError) as raised:
            wkt.from_arrays_column(arrays)
        self.assertEqual(str(raised.exception), "a column of arrays is wkt.ColumnArrays, and not Arrays")

    @unittest.skipIf(numpy is None, "no NumPy")
    def test_numpy(self):
        for name in ("int8", "int16", "int32", "int64", "uint8", "uint16", "uint32", "uint64", ">i8", "<u4"):
            self.assertEqual(point(numpy.array([1, 2], name)), "POINT(1 2)")
        self.assertEqual(point(numpy.array([[9, 1, 9, 2]])[:, 1::2]), "POINT(1 2)")
        self.assertEqual(point([numpy.int64(1), numpy.uint8(2)]), "POINT(1 2)")
        self.assertEqual(point(numpy.array([1, 2], object)), "POINT(1 2)")
        for name in ("float64", "float32", "bool", "complex64", "U1", "S1", "datetime64[s]"):
            with self.assertRaises(TypeError, msg=name):
                point(numpy.array([0, 1]).astype(name))
        for wrong in ([1, 2.0], [1, True], [1, numpy.bool_(True)], [1, numpy.float64(2)]):
            with self.assertRaises(TypeError):
                point(numpy.array(wrong, object))
        with self.assertRaises(OverflowError):
            point(numpy.array([1, 2**63], "uint64"))
        with self.assertRaises(OverflowError):
            point([1, 2], rings=numpy.array([0, -1]))
        with self.assertRaises(OverflowError):
            wkt.from_arrays_column(column(kinds=numpy.array([2**32, 0])), 0)
        with self.assertRaises(TypeError):
            wkt.from_arrays_column(column(numbers=numpy.array([1.0, 2.0, 3.0, 4.0])), 0)
        whole = numpy.array([[1, 9], [2, 9], [3, 9], [4, 9]])
        unaligned = numpy.frombuffer(b"x" + numpy.array([1, 2, 3, 4]).tobytes(), numpy.int64, offset=1)
        for numbers in (whole[:, 0], whole[:, :1], whole[:, 0].astype(">i8"), unaligned, memoryview(unaligned)):
            self.assertEqual(wkt.from_arrays_column(column(numbers=numbers), 0)[0], ["POINT(1 2)", "POINT(3 4)"])

    def test_places(self):
        arrays = wkt.to_arrays("POINT(1 2)", 0)
        held = wkt.to_arrays_column(["POINT(1 2)"], 0)
        calls = [
            lambda places: wkt.canonical("POINT(1 2)", places),
            lambda places: wkt.canonical(["POINT(1 2)"], places),
            lambda places: wkt.canonical_column(["POINT(1 2)"], places),
            lambda places: wkt.same("POINT(1 2)", "POINT(1 2)", places),
            lambda places: wkt.lines(b"POINT(1 2)\n", places),
            lambda places: wkt.to_arrays("POINT(1 2)", places),
            lambda places: wkt.to_arrays_column(["POINT(1 2)"], places),
            lambda places: wkt.from_arrays(arrays, places),
            lambda places: wkt.from_arrays_column(held, places),
        ]
        for call in calls:
            for wrong in (1.5, 6.0, True, "6", None, decimal.Decimal(6)):
                if wrong is None and calls.index(call) > 6:  # the places of the arrays
                    continue
                with self.assertRaises(TypeError, msg=repr(wrong)):
                    call(wrong)
            for wrong in (-1, 10**30, 2**32, 2**32 + 6):
                with self.assertRaises(OverflowError, msg=repr(wrong)):
                    call(wrong)
            with self.assertRaises(wkt.WktError) as raised:
                call(37)
            self.assertEqual(raised.exception.status, 23)
        if numpy is not None:
            self.assertEqual(wkt.canonical("POINT(1 2)", numpy.int32(6)), "POINT(1 2)")


class Rows(unittest.TestCase):
    def test_indices(self):
        held = wkt.to_arrays_column(["POINT(1 2)", "LINESTRING(3 4,5 6)", "POINT(7 8)"], 0)
        for i, numbers in [(0, [1, 2]), (1, [3, 4, 5, 6]), (2, [7, 8]), (-1, [7, 8]), (-2, [3, 4, 5, 6]), (-3, [1, 2])]:
            row = held.row(i)
            self.assertEqual(list(map(int, row.numbers)), numbers, i)
            self.assertEqual(row.kind, "LineString" if len(numbers) > 2 else "Point")
        for wrong in (3, -4, 10**30):
            with self.assertRaises(IndexError):
                held.row(wrong)
        with self.assertRaises(TypeError):
            held.row(1.0)
        with self.assertRaises(IndexError):
            wkt.to_arrays_column([]).row(0)

    def test_texts_alone(self):
        for wrong in (5, 10**12, 1.5, None, True, object(), {"POINT(1 2)": 1}, iter(())):
            for call in (wkt.canonical, wkt.infer, wkt.to_arrays, wkt.lines, lambda it: wkt.same(it, "POINT(1 2)")):
                with self.assertRaises(TypeError, msg=repr(wrong)):
                    call(wrong)
        for wrong in (5, 10**12, 1.5, True, ["POINT(1 2)"]):
            for call in (wkt.canonical, wkt.canonical_column, wkt.infer, wkt.to_arrays, wkt.to_arrays_column, wkt.lines,
                         lambda it: wkt.same(it, it)):  # fmt: skip
                with self.assertRaises(TypeError, msg=repr(wrong)):
                    call(["POINT(1 2)", wrong])
        self.assertEqual(wkt.canonical(bytearray(b"POINT(1 2)")), "POINT(1 2)")
        self.assertEqual(
            wkt.canonical(["POINT(1 2)", bytearray(b"POINT(1 2)"), memoryview(b"POINT(1 2)")]), ["POINT(1 2)"] * 3
        )

    def test_nulls(self):
        nulls = [None, float("nan"), -float("nan")]
        if numpy is not None:
            nulls += [numpy.nan, numpy.float64("nan"), numpy.float32("nan")]
        if pandas is not None:
            nulls += [pandas.NA, pandas.NaT]
        for null in nulls:
            texts = ["point(1 2)", null, "POINT(3 4)"]
            self.assertEqual(wkt.canonical(texts), ["POINT(1 2)", None, "POINT(3 4)"])
            self.assertEqual(wkt.canonical_column(texts), (["POINT(1 2)", None, "POINT(3 4)"], [0, 28, 0]))
            self.assertEqual(wkt.same(texts, texts), [True, None, True])
            self.assertEqual(wkt.infer(texts), [("Point", "XY"), None, ("Point", "XY")])
            self.assertEqual(wkt.lines(texts), ["POINT(1 2)", None, "POINT(3 4)"])
            self.assertEqual(list(wkt.to_arrays_column(texts).statuses), [0, 28, 0])
            self.assertIsNone(wkt.to_arrays(texts)[1])


class Errors(unittest.TestCase):
    def test_copies(self):
        for status, call in [(13, lambda: wkt.canonical("POINT(1 2.5)", 0)),
                             (3, lambda: wkt.canonical(["POINT(1 2)", "x"])),
                             (1, lambda: wkt.infer("PINT(")), (26, lambda: point([1]))]:  # fmt: skip
            with self.assertRaises(wkt.WktError) as raised:
                call()
            error = raised.exception
            self.assertEqual(error.status, status)
            protocols = [pickle.loads(pickle.dumps(error, protocol)) for protocol in range(pickle.HIGHEST_PROTOCOL + 1)]
            for again in [copy.copy(error), copy.deepcopy(error)] + protocols:
                self.assertIs(type(again), wkt.WktError)
                self.assertEqual((again.status, again.message, str(again)), (status, error.message, str(error)))
                self.assertEqual(again.row, error.row)

    def test_rows(self):
        texts = ["POINT(1 2)", None, "POINT(1 2)", "POINT(1"]
        arrays = wkt.to_arrays("POINT(1 2)")
        calls = [
            lambda: wkt.canonical(texts),
            lambda: wkt.same(texts, texts),
            lambda: wkt.same("POINT(1 2)", texts),
            lambda: wkt.to_arrays(texts),
            lambda: wkt.infer(["POINT(1 2)", None, "POINT(1 2)", "PINT(1"]),
            lambda: wkt.from_arrays([arrays, None, arrays, arrays._replace(numbers=[1])]),
        ]
        for call in calls:
            with self.assertRaises(wkt.WktError) as raised:
                call()
            self.assertEqual(raised.exception.row, 3)
            self.assertIn("row 3", str(raised.exception))
        with self.assertRaises(wkt.WktError) as raised:
            wkt.canonical("POINT(1")
        self.assertIsNone(raised.exception.row)
        self.assertNotIn("row", str(raised.exception))

    def test_processes(self):
        # A pool whose worker's error can't be read waits for it for ever: so there is a time limit.
        with concurrent.futures.ProcessPoolExecutor(1) as pool:
            try:
                for call, given, row in [(refuse, "PINT(1 2)", None), (refuse_row, ["POINT(1 2)", "PINT(1 2)"], 1)]:
                    with self.assertRaises(wkt.WktError) as raised:
                        pool.submit(call, given).result(timeout=600)
                    error = raised.exception
                    self.assertEqual((error.status, error.row), (3, row))
            finally:
                for process in list((pool._processes or {}).values()):
                    process.terminate()


class Shared(unittest.TestCase):
    @unittest.skipIf(numpy is None, "no NumPy")
    def test_arrays_that_change(self):
        """Another thread exchanges offsets all the time: a call takes them as they are at one moment."""
        good, wrong = numpy.array([0, 2, 4]), numpy.array([0, 2**40, 4])
        shared = good.copy()
        held = column(number_offsets=shared)
        stop = threading.Event()

        def change():
            while not stop.is_set():
                shared[:] = wrong
                shared[:] = good

        thread = threading.Thread(target=change)
        thread.start()
        try:
            for _ in range(20000):
                try:
                    self.assertEqual(wkt.from_arrays_column(held, 0)[0], ["POINT(1 2)", "POINT(3 4)"])
                except wkt.WktError as error:
                    self.assertEqual(error.status, 27)
        finally:
            stop.set()
            thread.join()

    def test_one_copy(self):
        """Without NumPy an array is the one copy of what a call has made."""
        made = memoryview(bytes(8 << 20))
        with unittest.mock.patch.object(wkt._values, "numpy", None):
            tracemalloc.start()
            try:
                self.assertEqual(len(wkt._values.array_of("q", made)), 1 << 20)
                self.assertLess(tracemalloc.get_traced_memory()[1], 12 << 20)
            finally:
                tracemalloc.stop()

    @unittest.skipIf(numpy is None, "no NumPy")
    def test_arrays_are_copied(self):
        """A call gets none of the caller's arrays, so that nothing can change them while it runs."""
        seen = []
        numbers, rings, offsets = numpy.array([1, 2]), numpy.array([0, 1], numpy.uint64), numpy.array([0, 2])

        def look(status, *given):
            seen.extend(given)

        with patched("wkt_from_arrays", look), patched("wkt_column_from_arrays", look):
            arrays = wkt.Arrays("Point", "XY", numbers, rings, rings, 0)
            for call, wanted in ((wkt.from_arrays, "POINT(1 2)"), (lambda it: wkt.from_arrays([it]), ["POINT(1 2)"])):
                self.assertEqual(call(arrays), wanted)
            one = wkt.ColumnArrays([0], [0], numbers, offsets, rings, offsets, rings, offsets, [0])
            self.assertEqual(wkt.from_arrays_column(one, 0)[0], ["POINT(1 2)"])
        addresses = [each for each in seen if isinstance(each, int)]
        self.assertGreater(len(addresses), 20)
        for given in (numbers, rings, offsets):
            self.assertNotIn(given.ctypes.data, addresses)


if __name__ == "__main__":
    unittest.main()
