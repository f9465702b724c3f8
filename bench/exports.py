"""Two exports as two databases write them: exports.py FOLDER ROWS [SEED] makes FOLDER/old.csv and FOLDER/new.csv.

Each has so many rows, of three quarters as many geometries; half of those are in both. Nine in ten are points, the
others lines and polygons, each spelled in one of several ways. Of a thousand rows one is refused, and one is empty.
"""
import csv
import random
import sys


def spelled(number, way):
    """The geometry of a number, in one of three spellings."""
    x, y = number * 2654435761 % 360_000_000 - 180_000_000, number * 40503 % 180_000_000 - 90_000_000
    points = [(x + 1000 * i, y + 700 * i * i % 90_000) for i in range(1 if number % 10 else 4 + number % 40)]
    text = (",", ", ", " , ")[way].join("%.6f %.6f" % (x / 1e6, y / 1e6) for x, y in points)
    if number % 10:
        return ("POINT(%s)", "Point (%s)", "point ( %s )")[way] % text
    if number % 20:
        return ("LINESTRING(%s)", "LineString (%s)", "linestring ( %s )")[way] % text
    first = "%.6f %.6f" % (points[0][0] / 1e6, points[0][1] / 1e6)
    return ("POLYGON((%s,%s))", "Polygon ((%s, %s))", "polygon ( ( %s , %s ) )")[way] % (text, first)


def drawn(rows, seed=1):
    """Of each row of both files the file's name, the number of the row, that of its geometry, and how it is spelled."""
    make, several = random.Random(seed), rows * 3 // 4
    for name, first in (("old", 0), ("new", several // 2)):
        for i in range(rows):
            yield name, i, first + int(make.random() * several), make.randrange(3)


def is_read(i):
    """Whether row i has a text that is read."""
    return i % 1000 not in (7, 8)


def main(folder, rows, seed=1):
    files = {name: open("%s/%s.csv" % (folder, name), "w", encoding="utf-8", newline="") for name in ("old", "new")}
    outs = {name: csv.writer(file, lineterminator="\n") for name, file in files.items()}
    outs["old"].writerow(["id", "geom"])
    outs["new"].writerow(["geom", "name"])
    for name, i, number, way in drawn(rows, seed):
        text = spelled(number, way)
        if not is_read(i):
            text = "" if i % 1000 == 7 else "SRID=4326;" + text
        outs[name].writerow([i, text] if name == "old" else [text, "new %d" % i])
    for file in files.values():
        file.close()


if __name__ == "__main__":
    main(sys.argv[1], *map(int, sys.argv[2:]))
