#!/bin/sh
# Makes libwkt.a, libwkt.so.0 with the link libwkt.so, wkt.pc and wkt.h of the proved library, and FROM, which says which that was.
# build.sh [FOLDER]: into that folder, else into capi/out. What is there as it should be is left.
# The proved library is the archive WKT_C_LIB; else crates/wkt_c/out/libwkt_c.a, which `rt lib` in crates/wkt_c leaves once it
# is proved; else, or with WKT_C_LIB=dist, the object in dist/. CC may be a compiler for another processor: then it is dist's.
# Where dist/ has no object for the system, and with WKT_C_LIB=portable, it is compiled of the portable C in dist/c.
set -eu
# With a CDPATH `cd` may go elsewhere, and says where.
unset CDPATH
here=$(cd "$(dirname "$0")" && pwd)
out=$(mkdir -p "${1:-$here/out}" && cd "${1:-$here/out}" && pwd)
stop() { echo "capi/build.sh: $*; then run capi/build.sh again" >&2; exit 1; }
has() { command -v "$1" > /dev/null; }

if [ -z "${CC:-}" ]; then
    for CC in cc gcc clang none; do if has "$CC"; then break; fi; done
fi
# CC may have words behind its name.
has "${CC%% *}" || stop "there is no C compiler, which links the library of dist/: install gcc, or name one by CC"
has make || stop "there is no make: install it"
export CC
proved=$here/../crates/wkt_c/out/libwkt_c.a
if [ -z "${WKT_C_LIB:-}" ]; then
    case $(WKT_C_LIB=dist "$here/../dist/objects.sh" 2> /dev/null) in x86_64-*) ;; *) proved=none ;; esac
    if [ -e "$proved" ]; then WKT_C_LIB=$proved; else WKT_C_LIB=dist; fi
else
    case $WKT_C_LIB in dist | portable) ;; *) WKT_C_LIB=$(realpath "$WKT_C_LIB") ;; esac
fi
export WKT_C_LIB
# Flags of a make that calls this are for its own sources.
unset MAKEFLAGS MFLAGS MAKELEVEL MAKEOVERRIDES CFLAGS CPPFLAGS LDFLAGS
# make takes no folder whose name has a space or the like, so it gets a link to that.
folder=$out
case $out in
    *[!A-Za-z0-9._/+@=,-]*)
        links=$(mktemp -d /tmp/wkt.XXXXXX)
        trap 'rm -rf "$links"' EXIT
        ln -s "$out" "$links/out"
        folder=$links/out
        ;;
esac
make -s -C "$here/../dist" library O="$folder" FOLDER="$(printf %s "$out" | sed 's/\$/$$/g')"
