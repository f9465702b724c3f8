#!/usr/bin/env bash
# crates_of.sh FOLDER: of each object in the folder the crates whose code it holds, but for those of this repository, as the
# names of its sections tell: the lines of NOTICE.
set -eu
ours=$(sed -n 's/^\([a-z_]*\).*:.*/\1/p' "$(dirname "$0")/../crates.txt")
for object in "$1"/*.o; do
    crates=$(readelf -W -S "$object" | sed -n 's/.* \.text\.\(unlikely\.\|hot\.\)\?\([a-z_]*\)::.*/\2/p' | LC_ALL=C sort -u | grep -vxF "$ours")
    echo "    $(basename "$object" .o):" $crates
done
