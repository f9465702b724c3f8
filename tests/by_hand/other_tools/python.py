"""Texts of GDAL and Shapely, as from_other_tools.sh takes them: python.py gdal|shapely DOUBLES GIVEN KINDS"""
import csv
import subprocess
import sys
import tempfile

import wkt

# The number of the greatest size that 18 places hold, and so the least double above it.
TOO_LARGE = 170141183460469231731.687303715884105727


def keys_of(texts, places=18):
    """The keys of whole texts, with None where one is refused."""
    return wkt.canonical(texts, places, invalid="null")


def rows(program, call, write, read, is_refused, places=18):
    """A line for each sort of doubles.

    write(points) gives their texts; read(texts) gives the points again. is_refused(x) is the rule.
    """
    sorts = {}
    with open(sys.argv[2], encoding="utf-8") as doubles:
        for line in doubles:
            sort, x, y = line.split("\t")
            sorts.setdefault(sort, []).append((float(x), float(y)))
    for sort, points in sorts.items():
        texts = write(points)
        keys = keys_of(texts, places)
        against = sum((key is None) != (is_refused(x) or is_refused(y)) for key, (x, y) in zip(keys, points))
        kept = [(key, point) for key, point in zip(keys, points) if key is not None]
        again = read([key for key, _ in kept])
        same = sum(found == key for found, (key, _) in zip(keys_of(write(again), places), kept))
        exact = sum(found == point for found, (_, point) in zip(again, kept))
        print(program, call, sort, len(texts), len(kept), same, exact, against, sep="\t")
    given(program, call, write, read)


def given(program, call, write, read):
    """Of each sort of given keys how many stay the same, where the program reads them and writes them by the call."""
    sorts = {}
    with open(sys.argv[3], encoding="utf-8") as keys:
        for line in keys:
            sort, key = line.rstrip("\n").split("\t")
            sorts.setdefault(sort, []).append(key)
    for sort, keys in sorts.items():
        same = sum(found == key for found, key in zip(keys_of(write(read(keys))), keys))
        print(program, call, sort, len(keys), same, sep="\t")


def kinds(program, again):
    """The keys of the file `kinds` that change: again(key) is the text of what the program reads, or None."""
    with open(sys.argv[4], encoding="utf-8") as keys:
        for key in keys.read().splitlines():
            text = again(key)
            found = "not read there" if text is None else keys_of([text])[0] or "refused"
            if found != key:
                print(program, key, found, sep="\t")


def ogr2ogr(texts):
    """The texts that ogr2ogr writes of a CSV of texts."""
    with tempfile.TemporaryDirectory() as folder:
        with open(folder + "/in.csv", "w", newline="") as table:
            csv.writer(table).writerows([["id", "WKT"], *enumerate(texts)])
        options = ["-lco", "GEOMETRY=AS_WKT", "-oo", "KEEP_GEOM_COLUMNS=NO"]
        subprocess.run(["ogr2ogr", "-f", "CSV", folder + "/out.csv", folder + "/in.csv", *options], check=True)
        with open(folder + "/out.csv", newline="") as table:
            return [row[0] for row in csv.reader(table)][1:]


def gdal():
    from osgeo import ogr

    def iso(p):
        g = ogr.Geometry(ogr.wkbPoint)
        g.AddPoint_2D(*p)
        return g.ExportToIsoWkt()

    def read(keys):
        return [ogr.CreateGeometryFromWkt(key).GetPoint_2D() for key in keys]

    def has_exponent(x):
        return abs(x) >= 1e15

    def again(key):
        ogr.DontUseExceptions()
        g = ogr.CreateGeometryFromWkt(key)
        return g and g.ExportToIsoWkt()

    calls = (
        ("g.ExportToIsoWkt()", lambda points: [iso(p) for p in points]),
        ("ogr2ogr -f CSV -lco GEOMETRY=AS_WKT", lambda points: ogr2ogr([f"POINT({x!r} {y!r})" for x, y in points])),
    )
    for call, write in calls:
        rows("GDAL", call, write, read, has_exponent)
    kinds("GDAL", again)


def shapely():
    import shapely
    import shapely.wkt
    from shapely.geometry import Point

    if hasattr(shapely, "to_wkt"):
        geos = shapely.geos_version
    else:
        from shapely.geos import geos_version as geos

    def dumps(**how):
        return lambda g: shapely.wkt.dumps(g, **how)

    def to_wkt(**how):
        return lambda g: shapely.to_wkt(g, **how)

    def is_refused(trims):
        def rule(x):
            has_exponent = trims and geos >= (3, 12, 0) and (0 < abs(x) < 1e-4 or abs(x) >= 1e17)
            return has_exponent or abs(x) >= TOO_LARGE

        return rule

    def again(key):
        try:
            return shapely.wkt.loads(key).wkt
        except Exception:  # Each version has other errors.
            return None

    calls = [
        ("g.wkt", lambda g: g.wkt, 18, True),
        ("shapely.wkt.dumps(g)", dumps(), 18, False),
        ("shapely.wkt.dumps(g, trim=True, rounding_precision=18)", dumps(trim=True, rounding_precision=18), 18, True),
        ("shapely.wkt.dumps(g, trim=True, rounding_precision=6)", dumps(trim=True, rounding_precision=6), 6, True),
        ("shapely.wkt.dumps(g, rounding_precision=6)", dumps(rounding_precision=6), 6, False),
    ]
    if hasattr(shapely, "to_wkt"):
        calls += [
            ("shapely.to_wkt(g, rounding_precision=6)", to_wkt(rounding_precision=6), 6, True),
            ("shapely.to_wkt(g, rounding_precision=6, trim=False)", to_wkt(rounding_precision=6, trim=False), 6, False),
        ]
    for call, write, places, trims in calls:
        rows(
            "Shapely",
            call,
            lambda points: [write(Point(*p)) for p in points],
            lambda keys: [shapely.wkt.loads(key).coords[0] for key in keys],
            is_refused(trims),
            places,
        )
    kinds("Shapely", again)


{"gdal": gdal, "shapely": shapely}[sys.argv[1]]()
