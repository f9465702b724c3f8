"""Seconds and the peak of memory of `python -m wkt.table`: files.py FOLDER [ROWS]

In FOLDER it makes the two exports of exports.py, each of so many rows (ten million), unless they are there. It runs
what is below over them, each run in a process of its own. How many rows a run has to give follows from how the exports
are made. TMPDIR names the folder of the temporary files.
"""
import array
import collections
import os
import subprocess
import sys
import time

import exports

RUNS = {
    "keys": [], "--dedup": ["--dedup"], "--join": ["--join", "new.csv"],
    "--join --dedup": ["--join", "new.csv", "--dedup"],
}  # fmt: skip


def wanted(rows):
    """How many rows each run has to give."""
    counts = {name: array.array("i", bytes(8 * rows)) for name in ("old", "new")}
    for name, i, number, _ in exports.drawn(rows):
        counts[name][number] += exports.is_read(i)
    pairs = collections.Counter(zip(counts["old"], counts["new"]))  # how often there are so many on each side
    return {
        "keys": sum(old * often for (old, _), often in pairs.items()),
        "--dedup": sum((old > 0) * often for (old, _), often in pairs.items()),
        "--join": sum(old * new * often for (old, new), often in pairs.items()),
        "--join --dedup": sum((old * new > 0) * often for (old, new), often in pairs.items()),
    }


def ran(folder, more):
    """Seconds by the clock and of a processor, the peak of memory in bytes, and how many rows came out."""
    words = [sys.executable, "-m", "wkt.table", "-q", "old.csv", "--column", "geom", "--out", "out.csv", *more]
    start = time.monotonic()
    process = subprocess.Popen([*words, "--rejects", "bad.csv"], cwd=folder)
    _, status, used = os.wait4(process.pid, 0)
    process.returncode = os.WEXITSTATUS(status)
    assert process.returncode == 1, "not as a run that refuses some"
    clock = time.monotonic() - start
    with open(folder + "/out.csv", "rb") as file:
        lines = sum(piece.count(b"\n") for piece in iter(lambda: file.read(1 << 20), b""))
    return clock, used.ru_utime + used.ru_stime, used.ru_maxrss << 10, lines - 1


def main(folder, rows=10_000_000):
    if not os.path.exists(folder + "/new.csv"):
        exports.main(folder, rows)
    held = sum(os.path.getsize("%s/%s.csv" % (folder, name)) for name in ("old", "new"))
    has = wanted(rows)
    print("| two files of %d rows, %.0f MB | rows | by the clock | of a processor | peak |" % (rows, held / 1e6))
    print("|---|---|---|---|---|", flush=True)
    for name, more in RUNS.items():
        clock, spent, peak, lines = ran(folder, more)
        print("| %s | %d | %.1f s | %.1f s | %.0f MB |" % (name, lines, clock, spent, peak / 1e6), flush=True)
        assert lines == has[name], "not %d rows" % has[name]


if __name__ == "__main__":
    main(sys.argv[1], *map(int, sys.argv[2:]))
