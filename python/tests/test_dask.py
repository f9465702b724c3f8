"""Dataframes of Dask, joined and deduplicated by their geometry, as one of pandas is."""
import unittest

from modules import installed

dask = installed("dask.dataframe")

TEXTS = ["POINT(1 2)", None, "point(1 2.0)", "PINT(1", "PINT(1", float("nan"), "POINT(3 4)", "Point(3 4.0)"]
TEXTS.append("POINT(7 8)")
OTHER = ["PINT(1", None, "Point(1 2)", "POINT(3.0 4)", "POINT(5 6)"]


@unittest.skipIf(dask is None, "no Dask")
class Dask(unittest.TestCase):
    def setUp(self):
        import pandas
        import wkt.dask
        import wkt.pandas

        self.pandas, self.tools = wkt.pandas, wkt.dask
        self.frame = pandas.DataFrame({"id": range(9), "geom": TEXTS})
        self.other = pandas.DataFrame({"n": range(5), "at": OTHER})
        self.parts = dask.dataframe.from_pandas(self.frame, npartitions=3)
        self.others = dask.dataframe.from_pandas(self.other, npartitions=2)
        dask.config.set(scheduler="synchronous")

    def test_keys(self):
        keys = self.tools.keys(self.parts.geom)
        wanted = ["POINT(1 2)", None, "POINT(1 2)", None, None, None, "POINT(3 4)", "POINT(3 4)", "POINT(7 8)"]
        self.assertEqual((keys.compute().tolist(), keys.name), (wanted, "geom"))
        self.assertEqual(self.parts.id[keys.isna() & self.parts.geom.notnull()].compute().tolist(), [3, 4])
        self.assertEqual(self.tools.keys(self.parts.geom, whole=False, places=1).compute().tolist(), wanted)

    def test_drop_duplicates(self):
        made = self.tools.drop_duplicates(self.parts, "geom")
        self.assertEqual(sorted(made.compute().id), [0, 1, 3, 4, 5, 6, 8])
        self.assertEqual((made.compute().columns.tolist(), made.columns.tolist()), (["id", "geom"], ["id", "geom"]))
        made = self.tools.drop_duplicates(self.parts, "geom", split_out=2)
        self.assertEqual((made.npartitions, len(made)), (5, 7))

    def test_merge(self):
        """The rows that pandas joins, whichever partition they are in."""
        for how in ("inner", "left", "right", "outer"):
            made = self.tools.merge(self.parts, self.others, "geom", "at", how=how, key="key")
            wanted = self.pandas.merge(self.frame, self.other, "geom", "at", how=how, key="key")
            rows = [it.astype(object).where(it.notna(), None).values.tolist() for it in (made.compute(), wanted)]
            self.assertEqual(sorted(rows[0], key=str), sorted(rows[1], key=str))
            self.assertEqual(made.columns.tolist(), wanted.columns.tolist())
        made = self.tools.merge(self.parts, self.parts, "geom", suffixes=("", "2")).compute()
        pairs = [(0, 0), (0, 2), (2, 0), (2, 2), (6, 6), (6, 7), (7, 6), (7, 7), (8, 8)]
        self.assertEqual(sorted(zip(made.id, made.id2)), pairs)
        with self.assertRaises(ValueError):
            self.tools.merge(self.parts.assign(**{"wkt.key": 1}), self.others, "geom", "at")


if __name__ == "__main__":
    unittest.main()
