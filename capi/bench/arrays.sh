#!/usr/bin/env bash
# Prints the instructions a byte of wkt_arrays, a call a line, and of wkt_column_arrays over all lines, by the library in
# capi/out or in the folder that is given: arrays.sh [FOLDER]. It needs valgrind and python3.
#
# A figure is as in bench/measure.sh: the count on 3 MB of lines less that on 1 MB, over the difference in bytes. What
# stands around the calls is counted apart and taken off. bench/README.md has figures.
set -eu
here=$(cd "$(dirname "$0")" && pwd)
lib=${1:-$here/../out}
lines=$here/../../bench/lines.py
work=$(mktemp -d)
trap 'rm -rf "$work"' EXIT
"${CC:-gcc}" -O2 -I"$lib" "$here/arrays.c" "$lib/libwkt.a" -o "$work/arrays"

workloads=${WORKLOADS:-mixed-6 points-6 points-0}
. "$here/../../bench/callgrind.sh"

# calls CALL INPUT: the instructions of the calls alone
calls() { echo $(($(all "$1" "$2") - $(all none "$2"))); }
all() { counted "$work/arrays" "$@"; }

head_of_table ''
for call in line column; do
    row $call calls $call
done
