#!/usr/bin/env bash
# The figures of bench/README.md: bench.sh MODULE LIBRARY. LIBRARY is the folder of libwkt.a and wkt.h.
#
# 2 MB of lines as bench/lines.py writes them, and 100,000 calls: by the native library, by Node, and by Chromium, there
# beside OpenLayers (Debian's libjs-openlayers). Processor time, so that it may be measured beside other work; of many
# runs the best counts.
set -eu
here=$(cd "$(dirname "$0")" && pwd)
module=$(readlink -f "$1") library=$(readlink -f "$2")
work=$(mktemp -d)
trap 'rm -rf "$work"' EXIT
cd "$work"
for name in mixed-6 points-6 mixed-15; do
    python3 "$here/../../bench/lines.py" "${name%-*}" "${name#*-}" 2000000 > "$name"
done
cc -O2 -I"$library" "$here/native.c" "$library/libwkt.a" -o native
echo "native:" && ./native mixed-6 points-6 mixed-15
echo "Node $(node --version):" && node "$here/node.js" "$module" mixed-6 points-6 mixed-15
echo "$(chromium --version 2> /dev/null):" && "$here/chromium.py" "$module" mixed-6 points-6 mixed-15
