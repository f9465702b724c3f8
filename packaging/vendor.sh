#!/usr/bin/env bash
# Brings crates of this library into another repository, with all crates below them, and updates them there.
#
# vendor.sh TARGET [CRATE..]: the crate wkt, or these. TARGET is the top of a repository. It needs a file crates.txt there,
# which may be empty. Brought are src, specs and proofs of each crate to TARGET/crates, the two licences to
# TARGET/LICENSES/wkt, and lines of crates.txt between two comments. Called again, it puts the newest in place of what it
# brought, and takes away crates that aren't needed any more. A crate that was changed there, or that it didn't bring,
# stops it before it writes.
# The first `rt check` there of a crate over wkt proves them all: 50 minutes of one processor. `rt try` needs no proof.
set -eu
unset CDPATH
root=$(cd "$(dirname "$0")/.." && pwd)
case ${1:-} in '' | -*) sed -n '2,/^set /s/^# \{0,1\}//p' "$0"; exit 2 ;; esac
target=$(cd "$1" && pwd)
shift
[ $# -gt 0 ] || set -- wkt
begin="# wkt: brought by packaging/vendor.sh of the library; changes here are lost"
end="# wkt: end"
licences=$target/LICENSES/wkt
stop() { echo "vendor.sh: $*" >&2; exit 1; }

[ -e "$target/crates.txt" ] || stop "$target has no crates.txt: where its crates have BUILD.bazel, put a line for each in one; else begin with an empty one"
# line NAME: the crate's line
line() { grep -E "^$1( [^:]*)?:" "$root/crates.txt" || stop "no crate $1"; }
# sums NAME: a sum of each file of a crate there
sums() { (cd "$target/crates" && find "$1" -path "$1/out" -prune -o -type f -print0 | LC_ALL=C sort -z | xargs -0 sha256sum); }

# The crates, lowest first, in the order of crates.txt.
needed=" "
add() {
    local dep
    case $needed in *" $1 "*) return ;; esac
    for dep in $(line "$1" | sed 's/^[^:]*://'); do
        if [ -d "$root/crates/$dep" ]; then add "$dep"; fi
    done
    needed="$needed$1 "
}
for crate; do
    line "$crate" > /dev/null
    add "$crate"
done

# What was brought before stands in a list of sums.
brought=" "
if [ -e "$licences/SHA256SUMS" ]; then
    brought=" $(sed 's/^[^ ]*  \([^/]*\).*/\1/' "$licences/SHA256SUMS" | uniq | tr '\n' ' ')"
    for crate in $brought; do
        [ ! -d "$target/crates/$crate" ] || sums "$crate"
    done | cmp -s - "$licences/SHA256SUMS" || stop "the crates that were brought are changed there"
fi
for crate in $needed; do
    case $brought in *" $crate "*) continue ;; esac
    [ ! -e "$target/crates/$crate" ] || stop "there is a crate $crate that wasn't brought by this"
done

for crate in $brought; do
    case $needed in *" $crate "*) ;; *) rm -rf "$target/crates/$crate" ;; esac
done
mkdir -p "$licences"
for crate in $needed; do
    mkdir -p "$target/crates/$crate"
    rm -rf "$target/crates/$crate"/{src,specs,proofs}
    for part in src specs proofs; do
        [ ! -d "$root/crates/$crate/$part" ] || cp -r "$root/crates/$crate/$part" "$target/crates/$crate"
    done
done
cp "$root"/LICENSE-* "$licences"
for crate in $needed; do sums "$crate"; done > "$licences/SHA256SUMS"
{
    # The last line may lack its line feed.
    sed -e "/^$(printf %s "$begin" | sed 's/[].[*^$/]/\\&/g')\$/,/^$end\$/d" -e '$a\' "$target/crates.txt"
    echo "$begin"
    for crate in $needed; do line "$crate"; done
    echo "$end"
} > "$target/crates.txt.new"
mv "$target/crates.txt.new" "$target/crates.txt"
echo "brought $(echo "$needed" | wc -w) crates: ${needed# }"
echo "a crate of your own calls it by a line in crates.txt, as: mine: $*"
