"""Canonical keys over Dask, on workers that are processes of their own: with_dask.py [ROWS [hosts|processes]]

It starts a scheduler and three workers, as hosts of their own where network namespaces can be made (root, Linux,
iproute2), and makes a table with the key that each row should have. By cut, sort and uniq of these it compares one
run, and Dask: the bytes of all keys (a bag of a text file), the counts of a group-by (a dataframe), the rows that are
refused, by their number, and each row joined to the first one of its geometry (wkt.dask); then a worker is killed in
the middle of that join, and the rows have to be the same.
Status 0: all of it holds. The package has to be there for the workers as it is here: PYTHONPATH and WKT_LIB are handed
on.
"""
import csv
import glob
import hashlib
import os
import random
import shutil
import signal
import socket
import subprocess
import sys
import tempfile
import time

import dask.bag
import dask.dataframe
import pandas
import wkt
import wkt.dask
from dask.distributed import Client

WORKERS, PARTITIONS = 3, 30
READ = dict(sep="\t", names=["id", "geometry", "made"], usecols=["id", "geometry"], quoting=csv.QUOTE_NONE,
            dtype={"id": "int64", "geometry": "object"})  # fmt: skip


def plain(number):
    """A number as a key has it: without the digits that mean nothing."""
    short = number.rstrip("0").rstrip(".")
    return "0" if short == "-0" else short


def spellings(make):
    """A geometry, spelled in several ways, each beside its key."""
    x, y, z, t = numbers = ["%.3f" % make.uniform(-180, 180) for _ in range(4)]
    if make.random() < 0.3:
        texts = ["LINESTRING(%s %s,%s %s)" % (x, y, z, t), "LineString ( %s00 %s , %s %s )" % (x, y, z, t)]
        key = "LINESTRING(%s %s,%s %s)" % tuple(map(plain, numbers))
    else:
        texts = ["POINT(%s %s)" % (x, y), "point ( %s0 %s )" % (x, y), "Point(%s %s00)" % (x, y)]
        key = "POINT(%s %s)" % (plain(x), plain(y))
    return [(text, key) for text in texts]


def make_table(path, rows):
    """A table of ids, texts, some null, and keys; it returns the ids of the rows that are refused."""
    make = random.Random(7)
    pool = [pair for _ in range(max(rows // 50, 10)) for pair in spellings(make)]
    refused = sorted(make.sample(range(rows), 20))
    wrong = dict(zip(refused, ["POINT(1", "PINT(1 2)", "POINT(1 2", "LINESTRING(1 2,3 x)"] * 5))
    with open(path, "w", encoding="utf-8") as file:
        for i in range(rows):
            text, key = make.choice(pool)
            if i in wrong or i % 1009 == 5:
                text, key = wrong.get(i, ""), ""
            file.write("%d\t%s\t%s\n" % (i, text, key))
    return refused


def by_shell(words, path):
    command = ["sh", "-c", "cut -f 3 | " + words]
    with open(path, "rb") as file:
        return subprocess.run(command, stdin=file, stdout=subprocess.PIPE, check=True, text=True).stdout


def counted(path):
    """The digest of all keys of the table, and the rows of each key, with no call of the package."""
    rows = [line.split(None, 1) for line in by_shell("LC_ALL=C sort | uniq -c", path).splitlines()]
    counts = {it[1]: int(it[0]) for it in rows if len(it) == 2}
    return by_shell("sha256sum", path).split()[0], pandas.Series(counts).sort_index()


def key_lines(keys):
    return "".join((key or "") + "\n" for key in keys)


def one_run(path):
    """The digest of all keys, and the refused rows, by this process alone."""
    made, refused = hashlib.sha256(), []
    for chunk in pandas.read_csv(path, chunksize=500_000, **READ):
        keys = wkt.canonical(chunk.geometry, invalid="null")
        made.update(key_lines(keys).encode())
        refused += chunk.id[keys.isna() & chunk.geometry.notna()].tolist()
    return made.hexdigest(), refused


def keys_of(lines):
    """The keys of the lines of a partition of the bag."""
    texts = [line.rstrip("\n").split("\t")[1] or None for line in lines]
    return [key or "" for key in wkt.canonical(texts, invalid="null")]


def digest_of(folder):
    made = hashlib.sha256()
    for path in sorted(glob.glob(folder + "/*.txt")):
        with open(path, "rb") as file:
            for piece in iter(lambda: file.read(1 << 20), b""):
                made.update(piece)
    return made.hexdigest()


def checked(frame):
    """The keys of a partition; an error has the id of the row in the place of its number in the partition."""
    try:
        return wkt.canonical(frame.geometry)
    except wkt.WktError as error:
        raise wkt.WktError(error.status, error.message, int(frame.id.iloc[error.row]), error.explanation) from None


class Hosts:
    """Where the processes run: in network namespaces on a bridge, or in this one."""

    def __init__(self, wanted):
        self.bridge, self.made = "wkt%d" % (os.getpid() % 100_000), []
        self.apart = wanted != "processes" and self.can_be_made()
        if wanted == "hosts" and not self.apart:
            raise SystemExit("no network namespaces can be made here")

    def ip(self, *words, check=True):
        return subprocess.run(["ip", *words], check=check, stderr=subprocess.DEVNULL).returncode == 0

    def can_be_made(self):
        try:
            return self.ip("link", "add", self.bridge, "type", "bridge", check=False) and (
                self.ip("addr", "add", "10.77.0.254/24", "dev", self.bridge)
                and self.ip("link", "set", self.bridge, "up")
            )
        except OSError:
            return False

    def start(self, number, words, **how):
        """A process on a host of its own, and the address of that host."""
        if not self.apart:
            return subprocess.Popen(words, **how)
        name, inside, outside = (
            "%s-%d" % (self.bridge, number),
            "%si%d" % (self.bridge, number),
            "%so%d" % (self.bridge, number),
        )
        self.made.append(name)
        self.ip("netns", "add", name)
        self.ip("link", "add", outside, "type", "veth", "peer", "name", inside)
        self.ip("link", "set", inside, "netns", name)
        self.ip("link", "set", outside, "master", self.bridge)
        self.ip("link", "set", outside, "up")
        self.ip("-n", name, "addr", "add", self.address(number) + "/24", "dev", inside)
        self.ip("-n", name, "link", "set", inside, "up")
        self.ip("-n", name, "link", "set", "lo", "up")
        return subprocess.Popen(["ip", "netns", "exec", name, *words], **how)

    def address(self, number):
        return "10.77.0.%d" % (number + 1) if self.apart else "127.0.0.1"

    def end(self):
        for name in self.made:
            self.ip("netns", "del", name, check=False)
        self.ip("link", "del", self.bridge, check=False)


class Cluster:
    """A scheduler and workers, each a process of its own."""

    def __init__(self, folder, wanted):
        self.hosts, self.processes, self.folder = Hosts(wanted), [], folder
        with socket.socket() as free:
            free.bind(("127.0.0.1", 0))
            port = free.getsockname()[1]
        self.address = "tcp://%s:%d" % (self.hosts.address(0), port)
        try:
            self.start(0, "dask_scheduler", "--host", self.hosts.address(0), "--port", str(port), "--no-dashboard")
            for number in range(1, WORKERS + 1):
                self.start(number, "dask_worker", self.address, "--host", self.hosts.address(number), "--no-nanny",
                           "--nthreads", "1", "--memory-limit", "4GB", "--no-dashboard",
                           "--local-directory", folder)  # fmt: skip
        except BaseException:
            self.end()
            raise

    def start(self, number, program, *words):
        log = open("%s/log%d" % (self.folder, number), "w")
        command = [sys.executable, "-m", "distributed.cli." + program, *words]
        self.processes.append(self.hosts.start(number, command, stdout=log, stderr=log))

    def end(self):
        for process in self.processes:
            process.terminate()
        for process in self.processes:
            try:
                process.wait(20)
            except subprocess.TimeoutExpired:
                process.kill()
                process.wait()
        self.hosts.end()


def spent(client=None):
    """Seconds by the clock, and of the processors that the workers have had."""
    return time.monotonic(), sum(client.run(time.process_time).values()) if client else time.process_time()


def took(what, start, client=None):
    end = spent(client)
    print("%s: %.1f s, %.1f s of processors" % (what, end[0] - start[0], end[1] - start[1]), flush=True)


def killed_in_the_middle(client, graph):
    """The answer to a computation during which one worker is killed, and how many workers are left."""
    victims = client.run(os.getpid)
    future = client.compute(graph)
    while not future.done() and not any(client.has_what().values()):
        time.sleep(0.02)
    # One that holds answers by now, which have to be made once more.
    victim = max(victims, key=lambda worker: len(client.has_what().get(worker, ())))
    early = not future.done()
    os.kill(victims[victim], signal.SIGKILL)
    answer = future.result()
    assert early, "it was done before the worker was killed: give it more rows"
    return answer, len(client.scheduler_info()["workers"])


def compared(client, path, refused, folder):
    """Compares what the workers answer with what the table was made of."""
    digest, counts = counted(path)
    start = spent()
    answer = one_run(path)
    took("one run: %d keys" % len(counts), start)
    assert answer == (digest, refused), answer

    start, size = spent(client), os.path.getsize(path) // PARTITIONS + 1
    bag = dask.bag.read_text(path, blocksize=size).map_partitions(keys_of)
    bag.to_textfiles(folder + "/*.txt", last_endline=True)
    took("a bag of the text file, %d partitions" % bag.npartitions, start, client)
    assert digest_of(folder) == digest, "other bytes"
    print("the bag: the bytes of the table")

    frame = dask.dataframe.read_csv(path, blocksize=size, **READ)
    key = frame.geometry.map_partitions(wkt.canonical, invalid="null", meta=("key", "object"))
    grouped = frame.assign(key=key).groupby("key").id.count()
    start = spent(client)
    answer = grouped.compute().sort_index()
    took("a dataframe grouped by key, %d partitions" % frame.npartitions, start, client)
    assert answer.index.tolist() == counts.index.tolist() and answer.tolist() == counts.tolist(), "other counts"
    print("the dataframe: the counts of uniq")
    rows = frame.id[key.isna() & frame.geometry.notnull()].compute().tolist()
    assert rows == refused, (rows, refused)
    try:
        frame.map_partitions(checked, meta=("key", "object")).compute()
        raise AssertionError("no row was refused")
    except wkt.WktError as error:
        assert error.row in refused, error
        print("refused in a worker: %s" % error)

    # Each row beside the first of its geometry, whose spelling may be another.
    firsts = wkt.dask.drop_duplicates(frame, "geometry", split_out=WORKERS)
    joined = wkt.dask.merge(frame, firsts, "geometry", key="key", suffixes=("", "_first"))
    sums = joined.groupby("key").agg({"id": "count", "id_first": ["min", "max"]})
    start = spent(client)
    answer = sums.compute().sort_index()
    took("deduplicated and joined, %d partitions" % joined.npartitions, start, client)
    left = WORKERS
    for what in ("the join", "the join with a worker killed"):
        assert answer.index.tolist() == counts.index.tolist(), "%s: other keys" % what
        assert answer["id", "count"].tolist() == counts.tolist(), "%s: other rows" % what
        assert answer["id_first", "min"].tolist() == answer["id_first", "max"].tolist(), "%s: two firsts" % what
        print("%s: the rows of uniq" % what)
        if left == WORKERS:
            start = time.monotonic()
            answer, left = killed_in_the_middle(client, sums)
            answer = answer.sort_index()
            print("the same, with a worker killed; %d are left: %.1f s" % (left, time.monotonic() - start), flush=True)
    assert left == WORKERS - 1, left


def main():
    rows = int(sys.argv[1]) if len(sys.argv) > 1 else 10_000_000
    wanted = sys.argv[2] if len(sys.argv) > 2 else ""
    folder = tempfile.mkdtemp(prefix="wkt-dask-")
    try:
        os.mkdir(folder + "/keys")
        start = spent()
        refused = make_table(folder + "/table.tsv", rows)
        took("made: %d rows, %d MB" % (rows, os.path.getsize(folder + "/table.tsv") >> 20), start)
        cluster = Cluster(folder, wanted)
        try:
            with Client(cluster.address, timeout=60) as client:
                client.wait_for_workers(WORKERS, timeout=60)
                where = {worker.split(":")[1].strip("/") for worker in client.scheduler_info()["workers"]}
                apart = "hosts" if cluster.hosts.apart else "processes"
                print("a scheduler and %d workers as %s: %s" % (WORKERS, apart, ", ".join(sorted(where))), flush=True)
                compared(client, folder + "/table.tsv", refused, folder + "/keys")
        finally:
            cluster.end()
    finally:
        shutil.rmtree(folder, ignore_errors=True)


if __name__ == "__main__":
    main()
