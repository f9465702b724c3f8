#!/usr/bin/env bash
# Prints the table of instructions a byte: measure.sh PROGRAM..
#
# Each PROGRAM reads lines from standard input, as crates/wktline/out/wktline does (rt run in crates/wktline builds it).
# callgrind counts instructions, so the figures are the same on every run. A figure is the count on 3 MB of lines less
# that on 1 MB, over the difference in bytes: what starting the program costs falls out. It needs valgrind and python3.
# WORKLOADS may name others than the four of the README, as "points-0 mixed-3".
#
# The programs to compare with are made so:
#   cargo build --release --manifest-path bench/rust/Cargo.toml   (bench/rust/target/release/wktline-rust)
#   g++ -O2 -o geos bench/geos.cpp -lgeos_c                       (Debian's libgeos-dev)
set -eu
[ $# -ge 1 ] || { sed -n 2,12p "$0"; exit 2; }
here=$(cd "$(dirname "$0")" && pwd)
lines=$here/lines.py
work=$(mktemp -d)
trap 'rm -rf "$work"' EXIT
workloads=${WORKLOADS:-mixed-6 points-6 mixed-15 points-15}
. "$here/callgrind.sh"

head_of_table program
for program in "$@"; do
    program=$(realpath "$program")
    row "$(basename "$program")" count "$program"
done
