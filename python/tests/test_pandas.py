"""Tables of pandas, joined and grouped by their geometry."""
import io
import unittest

import wkt
from modules import installed

pandas = installed("pandas")


@unittest.skipIf(pandas is None, "no pandas")
class Tables(unittest.TestCase):
    def setUp(self):
        import wkt.pandas

        self.tools = wkt.pandas
        texts = ["POINT(1 2)", None, "point(1 2.0)", "PINT(1", "PINT(1", float("nan"), "POINT(3 4)"]
        self.frame = pandas.DataFrame({"id": range(7), "geom": texts}, index=[9, 8, 7, 6, 5, 4, 3])
        self.frame.attrs["crs"] = "EPSG:4326"

    def test_drop_duplicates(self):
        for keep, ids in (("first", [0, 1, 3, 4, 5, 6]), ("last", [1, 2, 3, 4, 5, 6]), (False, [1, 3, 4, 5, 6])):
            made = self.tools.drop_duplicates(self.frame, "geom", keep=keep)
            self.assertEqual(made.id.tolist(), ids)
            self.assertEqual((made.index.tolist(), made.attrs), ([9 - it for it in ids], {"crs": "EPSG:4326"}))
        self.assertEqual(self.frame.geom[7], "point(1 2.0)")

    def test_groupby(self):
        groups = self.tools.groupby(self.frame, "geom").id.agg(list)
        self.assertEqual(groups.to_dict(), {"POINT(1 2)": [0, 2], "POINT(3 4)": [6]})

    def test_merge(self):
        """Refused and null rows meet none, not even those that are refused in the same words."""
        other = pandas.DataFrame({"at": ["PINT(1", None, "Point(1 2)", "POINT(3.0 4)", "POINT(5 6)"], "n": range(5)})
        made = self.tools.merge(self.frame, other, "geom", "at", key="key")
        self.assertEqual(made[["id", "n", "key"]].values.tolist(),
                         [[0, 2, "POINT(1 2)"], [2, 2, "POINT(1 2)"], [6, 3, "POINT(3 4)"]])  # fmt: skip
        self.assertEqual((list(made.columns), made.attrs), (["id", "geom", "at", "n", "key"], self.frame.attrs))
        for how, rows in (("left", 7), ("right", 6), ("outer", 10)):
            made = self.tools.merge(self.frame, other, "geom", "at", how=how, key="key")
            self.assertEqual((len(made), int(made.key.notna().sum())), (rows, 4 if how in ("right", "outer") else 3))
        twice = self.tools.merge(self.frame, self.frame, "geom", suffixes=("", "2"))
        self.assertEqual(sorted(zip(twice.id, twice.id2)), [(0, 0), (0, 2), (2, 0), (2, 2), (6, 6)])
        with self.assertRaises(ValueError):
            self.tools.merge(self.frame.assign(**{"wkt.key": 1}), other, "geom", "at")

    def test_refusals(self):
        texts = [
            "POINT(1 2)", None, "LINESTRING(1 2,3 x)", "POINT(1 1.25)", b"\xffx", "MULTICURVE(", "POINT(1 2) x",
            "a\ud800",
        ]  # fmt: skip
        too_many = "Unable to parse input number as the desired output type"
        wanted = [
            (6, 18, "a second number", "expected_y", "a second number was expected, and not x",
             "Expected a number for the Y coordinate"),
            (5, 9, "a second number", "places", "1.25 has 2 places, at most 1 are allowed", too_many),
            (4, 1, "", "not_utf8", "The text is not UTF-8", "The text is not UTF-8"),
            (3, 1, "a kind of geometry, such as POINT,", "curve", "curves are not read; ST_CurveToLine gives lines",
             "Invalid type encountered"),
            (2, 12, "the end of the text", "not_whole", "the end of the text was expected, and not x",
             "More than white space follows the geometry"),
            (1, 2, "", "not_utf8", "The text is not UTF-8", "The text is not UTF-8"),
        ]  # fmt: skip
        column = pandas.Series(texts, index=range(8, 0, -1))
        made = column.wkt.refusals(places=1)
        self.assertEqual([tuple(it) for it in made.drop(columns="text").itertuples()], wanted)
        self.assertEqual(made.text.tolist(), texts[2:])
        self.assertEqual(list(made.columns), ["text", "place", "expected", "cause", "hint", "message"])
        self.assertEqual(pandas.Index(texts).wkt.refusals(places=1).index.tolist(), [2, 3, 4, 5, 6, 7])
        for none in (column.wkt.refusals(places=1, whole=False).cause, column[:2].wkt.refusals().cause):
            self.assertNotIn("not_whole", none.tolist())
        self.assertEqual(len(column[:2].wkt.refusals()), 0)

    def test_read_csv(self):
        text = 'id,geom\n1,"point ( 1 2.50 )"\n2,\n3,"PINT(1"\n'
        with self.assertRaises(wkt.WktError) as raised:
            self.tools.read_csv(io.StringIO(text), wkt="geom")
        self.assertEqual(raised.exception.row, 2)
        for more in ({}, {"chunksize": 2}):
            made = self.tools.read_csv(io.StringIO(text), wkt="geom", invalid="null", **more)
            made = pandas.concat(made) if more else made
            self.assertEqual(made.geom.where(made.geom.notna(), None).tolist(), ["POINT(1 2.5)", None, None])
            self.assertEqual(made.id.tolist(), [1, 2, 3])


if __name__ == "__main__":
    unittest.main()
