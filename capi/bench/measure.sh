#!/usr/bin/env bash
# Prints the instructions a byte of one call of wkt_lines, without its caller, and of the same lines by GEOS's C API:
# capi/bench/measure.sh, once capi/build.sh has made the library. It needs valgrind and python3, and libgeos-dev for GEOS.
#
# callgrind counts between a call and its return alone (--toggle-collect). As in bench/measure.sh, a figure is the count
# on 3 MB of lines less that on 1 MB, over the difference in bytes. WORKLOADS may name others than the four there.
# PLACES="18 35" adds a row for each: a program that reads numbers of so many places. The last row is no count: it has the
# processor's cycles a byte, by cycles.c.
set -eu
here=$(cd "$(dirname "$0")" && pwd)
lines=$here/../../bench/lines.py
work=$(mktemp -d)
trap 'rm -rf "$work"' EXIT
cc=${CC:-gcc}
"$cc" -O2 -I"$here/../out" "$here/../examples/lines.c" "$here/../out/libwkt.a" -o "$work/wkt_lines"
"$cc" -O2 "$here/geos_lines.c" -lgeos_c -o "$work/geos_lines" 2> /dev/null || echo "no libgeos-dev"
workloads=${WORKLOADS:-mixed-6 points-6 mixed-15 points-15}
. "$here/../../bench/callgrind.sh"

"$cc" -O2 -I"$here/../out" "$here/time_lines.c" "$here/../out/libwkt.a" -o "$work/time_lines"
# with_places PLACES INPUT: what wkt_lines takes with so many
with_places() { counted "$work/time_lines" lines "$1" < "$2"; }

head_of_table ''
row 'the call wkt_lines' count "$work/wkt_lines" --toggle-collect=wkt_lines
row 'examples/lines.c' count "$work/wkt_lines"
for places in ${PLACES:-}; do row "wkt_lines, $places places" with_places "$places"; done
[ ! -x "$work/geos_lines" ] || row 'geos_lines.c' count "$work/geos_lines"
"$cc" -O2 -D_GNU_SOURCE -I"$here/../out" "$here/cycles.c" "$here/../out/libwkt.a" -o "$work/cycles"
cycles() { "$work/cycles" < "$1"; }
row 'cycles of wkt_lines_some' cycles
