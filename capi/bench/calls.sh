#!/usr/bin/env bash
# Prints the instructions of one call and how often it takes memory, by the library in capi/out or in the folder that is
# given, and of GEOS's reader and writer: calls.sh [FOLDER]. It needs valgrind, and libgeos-dev for GEOS.
set -eu
here=$(cd "$(dirname "$0")" && pwd)
lib=${1:-$here/../out}
work=$(mktemp -d)
trap 'rm -rf "$work"' EXIT
cc=${CC:-gcc}
wrap="-Wl,--wrap=malloc -Wl,--wrap=realloc"
"$cc" -O2 -I"$lib" "$here/calls.c" "$lib/libwkt.a" $wrap -o "$work/wkt"
"$cc" -O2 -DGEOS "$here/calls.c" $wrap -lgeos_c -o "$work/geos" 2> /dev/null || echo "no libgeos-dev"

# of PROGRAM CALL TEXT: the instructions of one call, less those of the program around it
of() {
    local few many
    few=$(counted "$@" 10) many=$(counted "$@" 110)
    echo $(((many - few) / 100))
}
. "$here/../../bench/callgrind.sh"

texts=('POINT EMPTY' 'POINT(1 2)' 'POINT(-171.244391 7.816492)' 'POINT(-171.244391234567891 7.816492345678912)'
    'POLYGON((0 0,10.5 0,10.5 1,9 2,8 3,7 4,6 5,5 6.25,0 7,0 0))' 'GEOMETRYCOLLECTION(POINT(1 2),LINESTRING(0 0,1 1),POINT EMPTY)'
    'POINT(1)' 'POINT Z (1 2 3)' 'point(1 2)' 'point empty' 'LINESTRING Z (0 0 1, 1 1 2)' 'MULTIPOINT((1 2),(3 4))'
    'MULTIPOINT(1 2,3 4)')
printf '%-64s %12s %12s %12s %12s %12s %12s %12s\n' '' canonical same infer explain arrays from GEOS
for text in "${texts[@]}"; do
    printf '%-64s' "$text"
    for call in canonical same infer explain arrays from; do
        printf ' %8s %3s' "$(of "$work/wkt" $call "$text")" "$("$work/wkt" $call "$text" 0)"
    done
    [ ! -x "$work/geos" ] || printf ' %12s' "$(of "$work/geos" canonical "$text")"
    printf '\n'
done
echo "Each: instructions, and how often it takes memory (of GEOS not counted). from: wkt_from_arrays, of what wkt_arrays gave."
