#!/bin/sh
# version.sh: the version of these sources, that of include/wkt.h: 1.0.0, or between releases 1.0.0-dev+COMMIT.
# version.sh python, version.sh debian: the same as these order versions: 1.0.0.dev0+gCOMMIT, 1.0.0~dev+COMMIT.
# version.sh in FILE: FILE, with the commit behind each "1.0.0-dev" and "1.0.0.dev0" of it.
# Of a folder that is no clone the commit isn't known, and is left out; a release and a source package have it in their files.
set -eu
unset CDPATH
top=$(cd "$(dirname "$0")/.." && pwd)
version=$(sed -n 's/^#define WKT_VERSION "\(.*\)"/\1/p' "$top/include/wkt.h")
commit=
case $version in *-dev)
    [ ! -e "$top/.git" ] || commit=$(git -C "$top" -c safe.directory='*' rev-parse --short=12 HEAD 2> /dev/null) || commit=
    ;;
esac
version=$version${commit:++$commit}
case ${1:-} in
    python) echo "$version" | sed 's/-dev+/.dev0+g/; s/-dev$/.dev0/' ;;
    debian) echo "$version" | sed 's/-dev/~dev/' ;;
    in) sed "${commit:+s/\"\([0-9.]*-dev\)\"/\"\1+$commit\"/; s/\"\([0-9.]*\.dev0\)\"/\"\1+g$commit\"/}" "$2" ;;
    *) echo "$version" ;;
esac
