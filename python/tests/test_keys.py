"""Keys of geometries that are no texts: doubles as decimals, lists of GeoArrow, and Shapely."""
import random
import unittest

import wkt
from modules import installed

numpy, pandas, shapely = installed("numpy"), installed("pandas"), installed("shapely")


@unittest.skipIf(numpy is None, "no NumPy")
class Doubles(unittest.TestCase):
    def test_shortest(self):
        """Each is what `repr` writes, which reads back as the same double."""
        import decimal

        from wkt._doubles import decimals

        make = random.Random(7)
        values = [0.1, -0.0, 1e-7, 13.404953999999998, 1 / 3, 0.1 + 0.2, 2.675, 1e15, 9007199254740993.0, 5e-324, 1e300]
        values += [make.uniform(-180, 180) for _ in range(500)]
        values += [make.uniform(-1, 1) * 10 ** make.randrange(-9, 18) for _ in range(500)]
        values += [round(make.uniform(-1e7, 1e7), make.randrange(9)) for _ in range(1000)]
        values += [1e-20, -1.5e-30, 1e-36, 1.25e-36, 1e-37, 2.0**-60]
        for places in (0, 6, 18, 36):
            for value, units, own, has in zip(values, *(it.tolist() for it in decimals(values, places))):
                shortest = decimal.Decimal(repr(value))
                if has:
                    self.assertEqual(decimal.Decimal(units).scaleb(-own), shortest)
                else:
                    digits = -shortest.normalize().as_tuple().exponent
                    self.assertTrue(digits > places or abs(value) * 10.0 ** max(digits, 0) >= 2.0**63, value)
        self.assertEqual(decimals([float("nan"), float("inf"), -float("inf")], 18)[2].tolist(), [False] * 3)

    def test_context(self):
        """The caller's context of decimals, which may round or raise, changes no number."""
        import decimal

        from wkt._doubles import decimals

        values = [0.1234567890123456, 9007199254740993.0, 1e-7, 2.0**-60]
        wanted = [it.tolist() for it in decimals(values, 36)]
        for asked in (dict(prec=3), dict(prec=3, traps=[decimal.Inexact]), dict(Emax=2)):
            with decimal.localcontext(decimal.Context(**asked)):
                self.assertEqual([it.tolist() for it in decimals(values, 36)], wanted)

    def test_fine_rows(self):
        """Numbers of a row that 64 bits hold at one number of places."""
        from wkt._doubles import decimals, scaled

        units, used, has = decimals([1e-36, -9e-18, 0.0, 5.0], 36)
        self.assertEqual((used.tolist(), has.tolist()), ([36, 18, 0, 0], [True] * 4))
        made, fits = scaled(units, used, numpy.full(4, 36))
        self.assertEqual((made.tolist(), fits.tolist()), ([1, -9 * 10**18, 0, 0], [True, True, True, False]))

    TEXTS = [
        "POINT(1.5 -2)", "POINT EMPTY", "LINESTRING(1 2,3 4.25)", "LINESTRING EMPTY", "POLYGON((0 0,4 0,2 4,0 0))",
        "POLYGON((0 0,9 0,9 9,0 0),(1 1,2 1,2 2,1 1))", "POLYGON EMPTY", "MULTIPOINT((1 2),(3 4))", "MULTIPOINT EMPTY",
        "MULTILINESTRING((1 2,3 4),(5 6,7 8,9 10))", "MULTILINESTRING EMPTY",
        "MULTIPOLYGON(((0 0,4 0,2 4,0 0)),((10 0,14 0,12 4,10 0),(11 1,12 1,12 2,11 1)))", "MULTIPOLYGON EMPTY",
        "POINT Z(1 2 3)", "LINESTRING Z(1 2 3,4 5 6)", "POLYGON Z((0 0 1,4 0 1,2 4 1,0 0 1))",
    ]  # fmt: skip

    def test_lists(self):
        """GeoArrow's lists back to the texts that they are of."""
        from wkt._geometries import ragged, texts_of

        for text in self.TEXTS:
            for rows in ([text], [text] * 3):
                held = wkt.to_arrays_column(rows, 6)
                made = held.geoarrow()
                kind, dimension = int(held.kinds[0]), int(held.dimensions[0])
                if "EMPTY" in text and "," not in text and kind in (1, 2, 4, 5):
                    self.assertEqual(wkt.canonical(text), text)
                back = texts_of(ragged(kind, dimension, made.coordinates, made.offsets), 18)
                self.assertEqual(back, (rows, [0] * len(rows)))

    def test_shapely(self):
        if not hasattr(shapely, "to_ragged_array"):
            with self.assertRaises(TypeError):
                wkt.keys([])
            return
        made = numpy.array([shapely.from_wkt(text) for text in self.TEXTS] + [None], object)
        self.assertEqual(wkt.keys(made), [*self.TEXTS, None])
        self.assertEqual(wkt.keys([]), [])
        wrong = [made[0], shapely.from_wkt("GEOMETRYCOLLECTION(POINT(1 2))")]
        wrong += [shapely.Point(float("inf"), 1), shapely.Point(1 / 3, 1)]
        for row, status in ((1, 24), (2, 13)):
            with self.assertRaises(wkt.WktError) as raised:
                wkt.keys([made[0], wrong[row]])
            self.assertEqual((raised.exception.row, raised.exception.status), (1, status))
        self.assertEqual(wkt.keys(wrong, 6, "null"), [self.TEXTS[0], None, None, None])
        self.assertEqual(wkt.keys(wrong[3:]), ["POINT(0.3333333333333333 1)"])
        rings = [shapely.LinearRing([(0, 0), (4, 0), (2, 4.5)]), made[2], shapely.LinearRing()]
        wanted = ["LINESTRING(0 0,4 0,2 4.5,0 0)", self.TEXTS[2], "LINESTRING EMPTY"]
        self.assertEqual(wkt.keys(rings), wanted)
        for text in self.TEXTS:
            self.assertEqual(wkt.keys(wkt.geometries(wkt.to_arrays_column([text, None, text]))), [text, None, text])

    COLUMNS = [
        ["MULTIPOINT(EMPTY,(1 2))", None, "MULTIPOINT((3 4),(5 6))"], ["MULTIPOINT Z((1 2 3),EMPTY)"],
        ["MULTILINESTRING(EMPTY,(1 2,3 4))", "MULTILINESTRING((1 2,3 4))"], ["POINT Z EMPTY", "POINT Z(1 2 3)"],
        ["MULTIPOLYGON(((0 0,4 0,2 4,0 0)))", "MULTIPOLYGON(EMPTY,((0 0,4 0,2 4,0 0)))", None],
        ["LINESTRING Z(1 2 3,4 5 6)", "LINESTRING Z EMPTY"], ["MULTILINESTRING(EMPTY)", None],
    ]  # fmt: skip
    MEASURED = [
        ["POINT M(1 2 3)", "POINT M EMPTY"], ["POLYGON ZM((0 0 1 2,1 0 1 2,1 1 1 2,0 0 1 2))", None],
        ["MULTIPOINT M(EMPTY,(1 2 3))"],
    ]  # fmt: skip

    def test_empty_and_measured(self):
        """Rows with something EMPTY beside others, and with M: as Shapely reads their texts."""
        if not hasattr(shapely, "to_ragged_array"):
            return
        has_m = hasattr(shapely, "has_m") and shapely.geos_version >= (3, 12)
        for texts in self.COLUMNS + self.MEASURED * has_m:
            self.assertEqual(wkt.keys([text if text is None else shapely.from_wkt(text) for text in texts]), texts)
            made = wkt.geometries(wkt.to_arrays_column(texts)).tolist()
            theirs = [text if text is None else shapely.to_wkt(shapely.from_wkt(text)) for text in texts]
            self.assertEqual([it if it is None else shapely.to_wkt(it) for it in made], theirs)
        for texts in self.MEASURED * (not has_m):
            with self.assertRaises(ValueError):
                wkt.geometries(wkt.to_arrays_column(texts))

    def test_series(self):
        """A GeoSeries comes back as a Series with its index, its name and its reference system."""
        if not hasattr(shapely, "to_ragged_array") or pandas is None:
            return
        made = [shapely.from_wkt("POINT (1 2)"), None, shapely.from_wkt("LINESTRING (1 2, 3 4.5)")]
        geopandas = installed("geopandas")
        series = geopandas.GeoSeries if geopandas else pandas.Series
        series = series(made, index=[5, 3, 4], name="geom")
        series.crs = "EPSG:4326"
        keys = wkt.keys(series)
        self.assertIs(type(keys), pandas.Series)
        self.assertEqual(keys.tolist(), ["POINT(1 2)", None, "LINESTRING(1 2,3 4.5)"])
        self.assertEqual((keys.index.tolist(), keys.name), ([5, 3, 4], "geom"))
        self.assertEqual(keys.attrs["crs"], "EPSG:4326")


if __name__ == "__main__":
    unittest.main()
