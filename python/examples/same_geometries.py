"""Finds the geometries that a table holds more than once, in different spellings, and plots how often.

    python3 python/examples/same_geometries.py [TABLE.csv [COLUMN [PLOT.png]]]

TABLE.csv has a column of well-known text, by default `geometry`; with no table a small one is made, of stations that
were entered twice. It needs pandas, and matplotlib for the plot.
"""
import argparse
import io
import sys

try:
    import pandas
    import wkt
except ImportError as error:
    sys.exit(f"{__doc__}\n{error}")

STATIONS = """station,geometry
Altona,POINT(9.935 53.552)
Barmbek,POINT(10.044 53.587)
Altona (S),point ( 9.9350 53.552 )
Dammtor,POINT(9.9898 53.5607)
Harburg,POINT(10 53.456)
Hauptbahnhof,POINT(10.0067 53.553)
Hauptbahnhof Nord,Point(10.00670 53.5530)
Harburg Rathaus,POINT(9.98 53.46)
Altona,POINT(9.935 53.552)
Hauptbahnhof Sued,POINT(+10.0067 053.553)
Sternschanze,POINT(9.968;53.564)
Unknown,
"""


def read(path):
    """The table, with its texts as they are spelled."""
    return pandas.read_csv(io.StringIO(STATIONS) if path is None else path, dtype=object)


def keys_of(texts):
    """The canonical text of each row as its key; what is refused is said, and has none."""
    for row, why in enumerate(wkt.explain(texts)):
        if why is not None:
            print("row %d is refused:\n%s\n" % (row, why))
    return wkt.canonical(texts, invalid="null")


def spelled_differently(table, column):
    """Of each geometry that the table holds more than once: how many rows, how many spellings, and which rows."""
    groups = table.assign(key=keys_of(table[column])).groupby("key")[column]
    counts = groups.agg(rows="size", spellings="nunique")
    counts["where"] = groups.apply(lambda texts: texts.index.tolist())
    return counts[counts.rows > 1].sort_values("rows", ascending=False)


def plot(counts, path):
    """Rows and spellings of each geometry as bars, in a PNG."""
    import matplotlib

    matplotlib.use("Agg")
    from matplotlib import pyplot

    shown = counts.head(20).iloc[::-1]
    figure, axes = pyplot.subplots(figsize=(8, 1.2 + 0.45 * len(shown)))
    places = range(len(shown))
    axes.barh([place + 0.2 for place in places], shown.rows, 0.38, label="rows")
    axes.barh([place - 0.2 for place in places], shown.spellings, 0.38, label="spellings")
    axes.set_yticks(list(places))
    axes.set_yticklabels([key if len(key) < 40 else key[:37] + "..." for key in shown.index])
    axes.xaxis.get_major_locator().set_params(integer=True)
    axes.set_title("Geometries that the table holds more than once")
    axes.legend(loc="upper left", bbox_to_anchor=(1.01, 1))
    figure.tight_layout()
    figure.savefig(path, dpi=120)


def main():
    parser = argparse.ArgumentParser(description=__doc__.split("\n")[0])
    parser.add_argument("table", nargs="?", metavar="TABLE.csv", help="the table; else a small one is made")
    parser.add_argument("column", nargs="?", metavar="COLUMN", default="geometry", help="of texts (%(default)s)")
    parser.add_argument("plot", nargs="?", metavar="PLOT.png", default="same_geometries.png", help="(%(default)s)")
    asked = parser.parse_args()
    try:
        table = read(asked.table)
    except OSError as error:
        parser.error(str(error))
    if asked.column not in table:
        parser.error(f"there is no column {asked.column}, but {', '.join(table)}")
    counts = spelled_differently(table, asked.column)
    texts = int((table[asked.column].value_counts() > 1).sum())
    print("%d rows; %d geometries stand in more than one row, and %d texts do" % (len(table), len(counts), texts))
    print(counts.to_string())
    plot(counts, asked.plot)
    print("the plot: " + asked.plot)


if __name__ == "__main__":
    main()
