#!/usr/bin/env bash
# Puts what the gate proved and built into dist/, with a PROVENANCE. Run it after .ci/run, in that checkout: its proofs have to
# have passed, and not its steps over an older dist/.
#
# refresh.sh [--incremental] [PROCESSOR..]: x86_64 alone where none is named. It takes crates/wkt_c/out/libwkt_c.a (WKT_C_LIB
# names another archive) and crates/NAME/out/NAME.o. Those of another processor the gate doesn't make: they are proved once
# more and built here, all at once, in some 20 minutes of one processor. --incremental begins with what `rt check` left of a
# crate, in a third of that; PROVENANCE says so. BUILT names a folder in which PROCESSOR/NAME.o may be built already.
# Nothing in dist/ changes before all of it is there and its sums, its kit and its tests are right. RUN=qemu-aarch64-static
# runs the tests of another processor, by the compiler PROCESSOR-linux-gnu-gcc; without RUN they aren't run.
set -eu
here=$(cd "$(dirname "$0")" && pwd)
cd "$here/.."
stop() { echo "refresh.sh: $*" >&2; exit 1; }
incremental=
[ "${1:-}" != --incremental ] || { incremental=yes; shift; }
[ $# != 0 ] || set -- x86_64
[ -z "$(git status --porcelain -- crates crates.txt)" ] || stop "crates/ isn't what is committed"
tree="$(git rev-parse HEAD:crates) $(git rev-parse HEAD:crates.txt)"
kit=$(dirname "$(dirname "$(realpath "$(command -v rt)")")")
names=(wkt_c wkt_command wktline wktstream)
work=$(mktemp -d)
trap 'rm -rf "$work"' EXIT

# gathered PROCESSOR: its objects, in $work/new/PROCESSOR
gathered() {
    local name to=$work/new/$1 running=()
    mkdir -p "$to"
    if [ -d "${BUILT:-/nowhere}/$1" ]; then
        for name in "${names[@]}"; do cp "$BUILT/$1/$name.o" "$to"; done
    elif [ "$1" = x86_64 ]; then
        [ -n "${WKT_C_LIB:-}" ] || [ "$(cat crates/wkt_c/out/OF 2> /dev/null)" = "$tree" ] || stop "no gate has passed here for these sources: .ci/run"
        ar p "${WKT_C_LIB:-crates/wkt_c/out/libwkt_c.a}" > "$to/wkt_c.o"
        for name in wkt_command wktline wktstream; do cp "crates/$name/out/$name.o" "$to"; done
    else
        for name in "${names[@]}"; do
            INCREMENTAL=$incremental dist/build.py "$name" "$1" "$to/$name.o" > "$work/$name.said" 2>&1 &
            running+=($!)
        done
        for name in "${!names[@]}"; do
            wait "${running[name]}" || { tail -n 20 "$work/${names[name]}.said"; stop "${names[name]} isn't built"; }
        done
    fi
}

# packed PROCESSOR: NAME.o.xz and PROVENANCE of those, in $work/top/dist/PROCESSOR
packed() {
    local name object to=$work/top/dist/$1
    mkdir -p "$work/old" "$to"
    for name in "${names[@]}"; do
        object=$work/new/$1/$name.o
        # The proof's own words in the object: another kit's logic isn't taken for this one's.
        readelf -p .comment "$object" | grep -q "rattle logic=$(rt version | sed 's/.* logic //')" || stop "$object is of another kit"
        # What is there already isn't packed anew: another xz might give other bytes.
        if WKT_PROCESSOR=$1 dist/objects.sh "$work/old" "$name" 2> /dev/null; then
            echo "$1/$name.o: $(dist/functions.py "$work/old/$name.o" "$object" | sed -n 1p)"
            ! cmp -s "$work/old/$name.o" "$object" || continue
        fi
        xz -9e --threads=1 -c "$object" > "$to/$name.o.xz"
    done
    {
        echo "commit     $(git rev-parse HEAD)"
        echo "crates     ${tree% *}"
        echo "crates.txt ${tree#* }"
        echo "kit        $(rt version)"
        echo "kit's sum  $(sed -n 's/^archive //p' "$kit/WHAT" 2> /dev/null)"
        echo "clang      $(sha256sum < "$kit/toolchain/bin/clang" | cut -d ' ' -f 1), $("$kit/toolchain/bin/clang" --version | sed -n 1p)"
        echo "by         rattle build --backend llvm --target $1-unknown-linux-gnu${incremental:+ --incremental}; of wkt_c with --crate-type staticlib, then ar p"
        (cd "$work/new/$1" && sha256sum "${names[@]/%/.o}")
    } > "$to/PROVENANCE"
}

# tested PROCESSOR: by `make check`, where it runs here
tested() {
    local compiler=cc
    [ "$1" = "$(uname -m)" ] || compiler=$1-linux-gnu-gcc
    if [ "$1" != "$(uname -m)" ] && [ -z "${RUN:-}" ]; then
        echo "$1: its tests weren't run (RUN=qemu-$1-static runs them)"
        return
    fi
    make -s -C "$work/top/dist" check O="$work/out-$1" CC="$compiler" RUN="$([ "$1" = "$(uname -m)" ] || echo "$RUN -L /usr/$1-linux-gnu")" > "$work/said" 2>&1 ||
        { tail -n 20 "$work/said"; stop "$1: make check fails over the new objects"; }
    sed "s/^/$1: /" "$work/said"
}

# A clone of its own, in which dist/ is another.
mkdir "$work/top"
ln -s "$PWD"/* "$work/top/"
rm "$work/top/dist"
cp -r dist "$work/top/dist"
for processor; do gathered "$processor"; done
for processor; do packed "$processor"; done
for processor; do WKT_C_LIB=dist tested "$processor"; done
for processor; do
    mkdir -p "dist/$processor"
    cp "$work/top/dist/$processor"/* "dist/$processor/"
done
{ sed '/^    wkt/,$d' dist/NOTICE; dist/crates_of.sh "$work/new/$1"; sed '1,/^    wktstream/d' dist/NOTICE; } > "$work/NOTICE"
cp "$work/NOTICE" dist/NOTICE
dist/check.sh
