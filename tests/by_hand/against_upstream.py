#!/usr/bin/env python3
"""Compares the Rust crate wkt 0.14.0 with the table of texts that the library answers (crates/wkt_tables/stdin).

    cargo build --release --manifest-path bench/rust/Cargo.toml
    tests/by_hand/against_upstream.py bench/rust/target/release/cases

Every row that is answered otherwise there has to fall under a row of docs/DIFFERENCES.md; one that doesn't is printed,
and the status is 1. It needs cargo, and the crate from its registry.
"""
import collections
import os
import re
import subprocess
import sys

TABLE = os.path.join(os.path.dirname(os.path.abspath(__file__)), "../../crates/wkt_tables/stdin")


def difference(text, here, there):
    """Why the two answers differ, or None where no known difference explains it."""
    reasons = []
    if there == "panic":
        if re.search(r"MULTIPOINT[ ZM]*\(", here) and "EMPTY" in here:
            return "a panic at an empty point in a multipoint"
        if re.search(r"MULTIPOLYGON[ ZM]*\(", here) and "EMPTY" in here:
            return "a panic at a polygon without exterior in a multipolygon"
        return None
    if there == "Missing closing parenthesis for type" and re.search(r"MULTIPOINT[ ZM]*\([^)]*EMPTY", here):
        return "EMPTY as a member of a multipoint is refused"
    if re.search(r"-0(?![.\d])", there):
        reasons.append("a float keeps the sign of zero")
        there = re.sub(r"-0(?![.\d])", "0", there)
    if "()" in there:
        reasons.append("an empty part is written ()")
        there = there.replace("()", "EMPTY")
    return " and ".join(reasons) if there == here and reasons else None


def main():
    if sys.argv[1:2] in (["-h"], ["--help"]):
        print(__doc__.strip())
        return 0
    with open(TABLE, encoding="utf-8", newline="\n") as table:
        rows = [row.split("\t", 1) for row in table.read().removesuffix("\n").split("\n")]
    texts = "".join(text + "\n" for text, _ in rows)
    run = subprocess.run(sys.argv[1:], input=texts.encode(), stdout=subprocess.PIPE, check=True)
    answers = run.stdout.decode().removesuffix("\n").split("\n")
    if len(answers) != len(rows):
        sys.exit(f"{len(rows)} texts, but {len(answers)} answers")
    counts = collections.Counter()
    for (text, here), there in zip(rows, answers):
        why = "the same" if here == there else difference(text, here, there)
        counts[why] += 1
        if why is None:
            print(f"{text!r}: here {here!r}, there {there!r}")
    for why, count in counts.most_common():
        print(count, why)
    return 1 if counts[None] else 0


if __name__ == "__main__":
    sys.exit(main())
