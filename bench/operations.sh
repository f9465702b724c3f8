#!/usr/bin/env bash
# Prints the tables of each operation beside the Rust crate's: operations.sh OURS CRATE
#
# OURS is crates/wkt_tables/out/wkt_tables, which rt run builds, by its argument `count`; CRATE does the same over the Rust
# crate: cargo build --release --manifest-path bench/rust/Cargo.toml makes bench/rust/target/release/operations.
#
# callgrind counts instructions, so the figures are the same on every run. A figure is what an operation takes beyond the
# one before it: reading beyond finding the lines, writing beyond reading. It needs valgrind and python3.
# BYTES says how much a workload has (300000 without it), WORKLOADS which, OPERATIONS which operations, and JOBS how
# many runs are counted at a time (1).
set -eu
[ $# = 2 ] || { sed -n 2,11p "$0"; exit 2; }
here=$(cd "$(dirname "$0")" && pwd)
work=$(mktemp -d)
trap 'rm -rf "$work"' EXIT

workloads=${WORKLOADS:-mixed-6 points-6 mixed-15 points-15 points-0 nested-6}
for workload in $workloads mixed-0 points-0 nested-0 points-6 refused-6 empty-6; do
    bytes=${BYTES:-300000}
    [ "$workload" != empty-6 ] || bytes=$((bytes / 50))
    python3 "$here/lines.py" "${workload%-*}" "${workload#*-}" "$bytes" > "$work/$workload"
done
python3 - "$work" "$(realpath "$1")" "$(realpath "$2")" "$workloads" << 'P'
import os, re, subprocess, sys
from concurrent.futures import ThreadPoolExecutor
from functools import lru_cache

work, ours, crate, workloads = *sys.argv[1:4], sys.argv[4].split()
chosen = os.environ.get("OPERATIONS", "").split()

# A row: the operation, the one before it, the type of the numbers, and what is called.
ROWS = [
    ("parse", "lines", "decimal", "`from_str`"),
    ("whole", "lines", "decimal", "`read_whole`"),
    ("to_string", "parse", "decimal", "`to_string`"),
    ("display", "parse", "decimal", "`Display`"),
    ("push", "parse", "decimal", "`push_geometry`"),
    ("to_flat", "parse", "decimal", "`try_into_geometry`"),
    ("canonical", "lines", "decimal", "`canonical_text`"),
    ("flat", "lines", "decimal", "`try_from_wkt_str`"),
    ("to_wkt", "flat", "decimal", "`to_wkt`"),
    ("wkt_string", "flat", "decimal", "`wkt_string`"),
    ("write_wkt", "flat", "decimal", "`write_wkt`"),
    ("tokens", "lines", "decimal", "`Tokens`"),
]
WHOLE_ROWS = [
    ("parse", "lines", "i64", "`from_str`"),
    ("to_string", "parse", "i64", "`to_string`"),
    ("to_flat", "parse", "i64", "`try_into_geometry`"),
    ("to_wkt", "flat", "i64", "`to_wkt`"),
]
LINE_ROWS = [
    ("infer", "lines", "decimal", "`infer_type`"),
    ("parse", "lines", "decimal", "`from_str`"),
    ("canonical", "lines", "decimal", "`canonical_text`"),
    ("flat", "lines", "decimal", "`try_from_wkt_str`"),
]
# What the crate doesn't have, or doesn't let its users call.
PRIVATE = ["tokens", "whole"]


@lru_cache(maxsize=None)
def count(program, numbers, operation, workload):
    words = ["valgrind", "--tool=callgrind", "--callgrind-out-file=/dev/null", program]
    words += ["count"] if os.path.basename(program) == "wkt_tables" else []
    words += [numbers, operation]
    with open(f"{work}/{workload}") as lines:
        run = subprocess.run(words, stdin=lines, capture_output=True, text=True, check=True)
    return int(re.search(r"Collected *: *(\d+)", run.stderr).group(1))


def figure(program, row, workload, of):
    operation, before, numbers, _ = row
    if program == crate and operation in PRIVATE:
        return None
    return (count(program, numbers, operation, workload) - count(program, numbers, before, workload)) / of(workload)


def bytes_of(workload):
    return os.path.getsize(f"{work}/{workload}")


def lines_of(workload):
    with open(f"{work}/{workload}", "rb") as lines:
        return sum(1 for _ in lines)


def table(head, rows, columns, of, form):
    print("|".join(["", f" {head} ", *(f" {it} " for it in columns), ""]))
    print("|---" * (1 + len(columns)) + "|")
    rows = [it for it in rows if not chosen or it[0] in chosen]
    with ThreadPoolExecutor(int(os.environ.get("JOBS", "1"))) as pool:
        ways = [(row, it) for row in rows for it in columns]
        cells = dict(zip(ways, pool.map(lambda way: [figure(it, *way, of) for it in (ours, crate)], ways)))
    for row in rows:
        words = [" / ".join(format(it, form) for it in cells[row, column] if it is not None) for column in columns]
        print("|".join(["", f" {row[3]} ", *(f" {it} " if it else " " for it in words), ""]), flush=True)


table("instructions a byte", ROWS, workloads, bytes_of, ".1f")
print()
table("the same over `i64`", WHOLE_ROWS, ["mixed-0", "points-0", "nested-0"], bytes_of, ".1f")
print()
table("instructions a line", LINE_ROWS, ["points-6", "refused-6", "empty-6"], lines_of, ".0f")
P
