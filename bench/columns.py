"""Processor time and peak of memory for a column of points of six decimals, beside Shapely: columns.py [ROWS [FEW]]

columns.py sizes [TURNS [FORM]]: each form of list and of column, of rows of 33 bytes to 90 KB, 8 to 16 MB in all, and a
loop of single calls, in turn in one process: milliseconds of a processor, the least; how many times that of the loop it
is; of two that come in turn, the median of that, which stands the noise of a loaded machine; and the page faults of a
call.

columns.py threads [ROWS]: threads over parts of one column of Arrow: the least time by the clock, and what a thread
spends on a processor, waiting for one, and waiting for something else, such as the lock of the interpreter.

Each row of the table is a process of its own: the seconds are the least of three calls, and the memory is the peak of
the first call above what stood before it. Shapely 1.8 has a call a row, so it gets FEW rows (by default a tenth), and
its figures are scaled up. It needs NumPy and pandas, and Shapely for its rows.
"""
import os
import resource
import subprocess
import sys

HERE = os.path.dirname(os.path.abspath(__file__))
LINES = os.path.join(HERE, "lines.py")


def texts_of(rows):
    made = subprocess.run([sys.executable, LINES, "points", "6", str(rows * 29)], stdout=subprocess.PIPE, check=True)
    return made.stdout.decode().split("\n")[:rows]


def spelled_otherwise(texts):
    return [text.replace("POINT(", "point ( ") for text in texts]


def arrow_of(texts):
    import numpy
    import wkt

    data = "".join(texts).encode()
    offsets = numpy.cumsum([0] + list(map(len, texts))).astype(numpy.int64)
    return wkt.ArrowTexts(numpy.frombuffer(data, numpy.uint8), offsets, numpy.zeros(len(texts), numpy.uint32))


def shared_by(rows):
    """An Arrow column of so many rows, which are a dictionary of ten texts of 50 KB."""
    import numpy
    import wkt

    few = arrow_of(["LINESTRING(%s)" % ",".join(["%d.0 1" % i] * 8000) for i in range(10)])
    indices = numpy.arange(rows, dtype=numpy.int32) % 10
    return wkt.ArrowTexts(few.data, few.offsets, numpy.zeros(rows, numpy.uint32), None, indices)


def unshared(texts):
    """An Arrow column that is a dictionary, each of whose texts one row has."""
    import numpy
    import wkt

    held = arrow_of(texts)
    return wkt.ArrowTexts(held.data, held.offsets, held.statuses, None, numpy.arange(len(texts), dtype=numpy.int32))


def tasks():
    """Of each task its name, what is made before, and what is measured."""
    import wkt

    def arrays_of(texts):
        return wkt.to_arrays_column(texts, 6)

    def series_of(texts):
        import pandas

        return pandas.Series(texts)

    def objects_of(texts):
        import numpy

        return numpy.array(texts, object)

    return {
        "reads, list": (list, wkt.reads),
        "infer, list": (list, wkt.infer),
        "explain, list": (list, wkt.explain),
        "lines, list": (list, wkt.lines),
        "Arrays, list": (list, wkt.to_arrays),
        "texts of Arrays, list": (wkt.to_arrays, wkt.from_arrays),
        "canonical, list": (list, wkt.canonical),
        "canonical, list, spelled otherwise": (spelled_otherwise, wkt.canonical),
        "canonical, array of objects": (objects_of, wkt.canonical),
        "canonical, Series": (series_of, wkt.canonical),
        "canonical, Arrow's buffers": (arrow_of, wkt.canonical),
        "canonical, Arrow's dictionary": (lambda texts: shared_by(len(texts)), wkt.canonical),
        "canonical, Arrow's dictionary of all different": (unshared, wkt.canonical),
        "keys of GeoArrow": (lambda texts: arrays_of(texts).geoarrow(6), wkt.keys),
        "same, two lists": (lambda texts: (texts, spelled_otherwise(texts)), lambda two: wkt.same(*two)),
        "to arrays, list": (list, arrays_of),
        "to arrays, Arrow's buffers": (arrow_of, arrays_of),
        "to arrays and GeoArrow, list": (list, lambda texts: arrays_of(texts).geoarrow(6)),
        "from arrays, list": (arrays_of, lambda held: wkt.from_arrays_column(held, 6)),
        "lines, bytes": (lambda texts: "\n".join(texts).encode(), wkt.lines),
    }


def shapely_tasks():
    import numpy
    import shapely.wkt
    from shapely.geometry import Point

    loads = shapely.wkt.loads

    def dumps(made):
        return [shapely.wkt.dumps(one, trim=True, rounding_precision=6) for one in made]

    def coordinates(texts):
        return numpy.array([loads(text).coords[0] for text in texts])

    return {
        "Shapely: loads and dumps (canonical)": (list, lambda texts: dumps(map(loads, texts))),
        "Shapely: loads and equals_exact (same)": (
            lambda texts: (texts, spelled_otherwise(texts)),
            lambda two: [loads(a).equals_exact(loads(b), 0) for a, b in zip(*two)],
        ),
        "Shapely: loads and coords (to arrays)": (list, coordinates),
        "Shapely: Point and dumps (from arrays)": (coordinates, lambda held: dumps(map(Point, held))),
    }


def resident():
    """Bytes that are in memory, and the most that were since the mark was set back."""
    with open("/proc/self/status", encoding="ascii") as lines:
        held = dict(line.split(":", 1) for line in lines)
    return int(held["VmRSS"].split()[0]) << 10, int(held["VmHWM"].split()[0]) << 10


SIZES = {
    "33 B": (33, 250_000), "1 KB": (1000, 16_000), "5 KB": (5000, 3_200), "22 KB": (22_000, 700),
    "90 KB": (90_000, 180),
}  # fmt: skip


def lines_of(size, rows):
    """Lines of about so many bytes, each another, spelled as no canonical text is."""
    import random

    make = random.Random(size)
    places = ["%.6f %.6f" % (make.uniform(-180, 180), make.uniform(-90, 90)) for _ in range(4000)]
    count = max(1, (size - 12) // 22)
    for i in range(rows):
        start = make.randrange(4000)
        some = [places[(start + k) % 4000] for k in range(count)]
        yield "LineString (%d 1,%s)" % (i, ",".join(some))


def one_by_one(call):
    return lambda rows: [call(row) for row in rows]


def forms():
    """Of each form of list and of column what it takes, the form, and a loop of single calls."""
    import wkt

    def canonical(texts):
        return [wkt.canonical(text) for text in texts]

    def refused(texts):
        return [text[:-1] + "x" for text in texts]

    def two(one, other):
        return [wkt.same(*both) for both in zip(one, other)]

    def of_arrow(call, column_of=arrow_of):
        """Beside a loop over the texts themselves."""
        made = lambda texts: (column_of(texts), texts)  # noqa: E731
        return made, lambda both: call(both[0]), lambda both: list(map(call, both[1]))

    made = {call.__name__: (list, call, one_by_one(call)) for call in (wkt.canonical, wkt.reads, wkt.infer, wkt.lines)}
    return {
        **made,
        "canonical, of keys": (canonical, *made["canonical"][1:]),
        "explain": (list, wkt.explain, one_by_one(wkt.explain)),
        "explain, all refused": (refused, wkt.explain, one_by_one(wkt.explain)),
        "same": (lambda texts: (texts, canonical(texts)), lambda both: wkt.same(*both), lambda both: two(*both)),
        "to_arrays": (list, wkt.to_arrays, one_by_one(wkt.to_arrays)),
        "from_arrays": (wkt.to_arrays, wkt.from_arrays, one_by_one(wkt.from_arrays)),
        "canonical_column": (list, wkt.canonical_column, one_by_one(wkt.canonical)),
        "to_arrays_column": (list, wkt.to_arrays_column, one_by_one(wkt.to_arrays)),
        "from_arrays_column": (
            wkt.to_arrays_column, wkt.from_arrays_column,
            lambda held: [wkt.from_arrays(held.row(i)) for i in range(len(held.kinds))],
        ),
        "canonical, Arrow": of_arrow(wkt.canonical),
        "reads, Arrow": of_arrow(wkt.reads),
        "canonical, Arrow's dictionary of all different": of_arrow(wkt.canonical, unshared),
        "read_events": (list, wkt.read_events, one_by_one(wkt.read_events)),
    }


def in_turn(calls, given, turns):
    """Of each call the seconds of a processor and the page faults of so many turns. Who came last begins the next."""
    import time

    spent, faults = [[] for _ in calls], [[] for _ in calls]
    for turn in range(-1, turns):  # the first isn't counted
        for i in range(len(calls))[:: -1 if turn % 2 else 1]:
            before, start = resource.getrusage(resource.RUSAGE_SELF).ru_minflt, time.process_time()
            answer = calls[i](given)
            end, after = time.process_time(), resource.getrusage(resource.RUSAGE_SELF).ru_minflt
            del answer
            if turn >= 0:
                spent[i].append(end - start)
                faults[i].append(after - before)
    return spent, faults


def sizes(turns=40, only=None):
    from statistics import median

    print("| a list beside a loop | %s |\n|%s" % (" | ".join(SIZES), "---|" * (len(SIZES) + 1)))
    for name, (prepare, form, loop) in forms().items():
        if only not in (None, name):
            continue
        cells = []
        for size in SIZES.values():
            (form_spent, loop_spent), faults = in_turn((form, loop), prepare(list(lines_of(*size))), turns)
            ratios = min(form_spent) / min(loop_spent), median(a / b for a, b in zip(form_spent, loop_spent))
            cells.append("%.1f, %.2f, %.2f, %d" % (1000 * min(form_spent), *ratios, median(faults[0])))
        print("| %s | %s |" % (name, " | ".join(cells)), flush=True)


def threads(rows=1_000_000):
    import threading
    import time
    import wkt

    def now():
        with open("/proc/thread-self/schedstat", encoding="ascii") as times:
            run, waits, _ = map(int, times.read().split())
        return time.perf_counter_ns(), run, waits

    def work(part, spent):
        start = now()
        wkt.canonical(part)
        spent.append([after - before for before, after in zip(start, now())])

    column = arrow_of(texts_of(rows))
    print("| threads | least by the clock | of each on a processor | waiting for one | for something else |")
    print("|---|---|---|---|---|")
    for count in (1, 2, 4):
        cuts, spent, least = [rows * i // count for i in range(count + 1)], [], 1e9
        parts = [column[first:last] for first, last in zip(cuts, cuts[1:])]
        for _ in range(40):
            made = [threading.Thread(target=work, args=(part, spent)) for part in parts]
            start = time.perf_counter()
            for call in (threading.Thread.start, threading.Thread.join):
                list(map(call, made))
            least = min(least, time.perf_counter() - start)
        clock, run, waits = (sum(each) / len(spent) / 1e6 for each in zip(*spent))
        shown = count, 1000 * least, run, waits, clock - run - waits
        print("| %d | %.0f ms | %.1f | %.1f | %.1f |" % shown, flush=True)


def measure(name, rows):
    known = shapely_tasks() if name.startswith("Shapely") else tasks()
    prepare, call = known[name]
    texts = list(lines_of(*SIZES[rows])) if rows in SIZES else texts_of(int(rows))
    held = sum(map(len, texts))
    given = prepare(texts)
    with open("/proc/self/clear_refs", "w", encoding="ascii") as mark:
        mark.write("5")
    before = resident()[0]
    best, peak = 1e9, 0
    for _ in range(3):
        start = resource.getrusage(resource.RUSAGE_SELF)
        answer = call(given)
        end = resource.getrusage(resource.RUSAGE_SELF)
        best = min(best, end.ru_utime + end.ru_stime - start.ru_utime - start.ru_stime)
        peak = peak or resident()[1] - before
        del answer
    print(best, peak, held)


def main(rows=1_000_000, few=None):
    few = few or rows // 10
    names = list(tasks())
    try:
        names += shapely_tasks()
    except ImportError:
        print("no Shapely", file=sys.stderr)
    print("| %d points | seconds of processor time | peak of memory |\n|---|---|---|" % rows)
    for name in names:
        count = few if name.startswith("Shapely") else rows
        made = subprocess.run([sys.executable, __file__, name, str(count)], stdout=subprocess.PIPE, check=True)
        seconds, peak, _ = map(float, made.stdout.split())
        scale = rows / count
        print("| %s | %.2f | %.0f MB |" % (name, seconds * scale, peak * scale / 1e6), flush=True)


if __name__ == "__main__":
    if sys.argv[1:2] == ["sizes"]:
        sizes(*map(int, sys.argv[2:3]), *sys.argv[3:])
    elif sys.argv[1:2] == ["threads"]:
        threads(*map(int, sys.argv[2:]))
    elif len(sys.argv) == 3 and not sys.argv[1].isdigit():
        measure(sys.argv[1], sys.argv[2])
    else:
        main(*map(int, sys.argv[1:]))
