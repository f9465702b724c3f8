"""Arrow columns of other programs, which lend them without pyarrow: GDAL from 3.9 on, and pyogrio."""
import os
import tempfile
import unittest

import wkt
from modules import installed

geopandas, pyogrio = installed("geopandas"), installed("pyogrio")
osgeo = installed("osgeo.ogr") and installed("osgeo.gdal")
lends = None not in (pyogrio, osgeo) and hasattr(osgeo.ogr.Layer, "GetArrowArrayStreamInterface")
TEXTS = ["point ( 1 2.50 )", None, "POINT(1", "LineString(1 2, 3 4)"] * 20_000
KEYS = ["POINT(1 2.5)", None, None, "LINESTRING(1 2,3 4)"] * 20_000


@unittest.skipIf(wkt._native._fast is None, "no fast module")
@unittest.skipUnless(lends, "no GDAL that lends")
class Producers(unittest.TestCase):
    def setUp(self):
        folder = tempfile.TemporaryDirectory()
        self.addCleanup(folder.cleanup)
        self.folder = folder.name

    def test_gdal(self):
        """A column of a file of comma-separated values, in several batches."""
        path = os.path.join(self.folder, "texts.csv")
        with open(path, "w", encoding="utf-8") as file:
            file.write("id,geom\n")
            file.writelines("%d,%s\n" % (i, text and '"%s"' % text or "") for i, text in enumerate(TEXTS))
        osgeo.gdal.UseExceptions()
        source = osgeo.gdal.OpenEx(path, open_options=["EMPTY_STRING_AS_NULL=YES"])
        layer = source.GetLayer(0)
        with self.assertRaisesRegex(TypeError, "an Arrow table of 3 columns"):
            wkt.canonical(layer)
        layer.SetIgnoredFields(["id"])
        lent = layer.GetArrowArrayStreamInterface(["INCLUDE_FID=NO"])
        self.assertEqual(wkt.canonical(lent, invalid="null").to_pylist(), KEYS)
        with self.assertRaises(wkt.WktError) as raised:
            wkt.canonical(layer.GetArrowArrayStreamInterface(["INCLUDE_FID=NO"]))
        self.assertEqual(raised.exception.row, 2)

    def test_pyogrio(self):
        """Texts of a GeoPackage; its geometries are well-known binary, which is refused with what to do instead."""
        path = os.path.join(self.folder, "texts.gpkg")
        points = geopandas.points_from_xy([float(i) for i in range(len(TEXTS))], [0.5] * len(TEXTS))
        geopandas.GeoDataFrame({"text": TEXTS}, geometry=points, crs="EPSG:4326").to_file(path)

        def lent(**more):
            return pyogrio.open_arrow(path, use_pyarrow=False, **more)

        with lent(columns=["text"], read_geometry=False) as (_, stream):
            batches = list(wkt.batches(stream, invalid="null"))
        self.assertEqual([key for batch in batches for key in batch], KEYS)
        self.assertGreater(len(batches), 1)
        with lent(columns=[]) as (_, stream), self.assertRaisesRegex(TypeError, "wkt.keys takes a GeoSeries itself"):
            wkt.keys(stream)
        with lent() as (_, stream), self.assertRaisesRegex(TypeError, "nor of a table of several"):
            wkt.keys(stream)
        read = geopandas.read_file(path, rows=3)
        keys = wkt.keys(read.geometry)
        self.assertEqual((keys.tolist(), keys.attrs["crs"]), (["POINT(%d 0.5)" % i for i in range(3)], read.crs))


if __name__ == "__main__":
    unittest.main()
