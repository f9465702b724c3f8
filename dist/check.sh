#!/usr/bin/env bash
# Whether dist/ is what these sources give. In the gate, beside what it has just proved and built; alone, as far as that is there.
#
# It fails where a sum is wrong; where dist is of these very sources and this kit, and other bytes were built; where NOTICE
# names other crates than the objects; and where the library's tests, with today's header and C, don't pass over it. Else it
# says how old dist is.
set -u
unset CDPATH
here=$(cd "$(dirname "$0")" && pwd)
cd "$here/.." || exit 1
work=$(mktemp -d)
trap 'rm -rf "$work"' EXIT
fail() { echo "dist: $*"; exit 1; }
names=(wkt_c wkt_command wktline wktstream)
processors=$(cd dist && echo */wkt_c.o.xz | sed 's,/wkt_c.o.xz,,g')

# unpacked PROCESSOR: nothing but what PROVENANCE names, each with its sum
unpacked() {
    local has wanted
    wanted=$(printf '%s\n' PROVENANCE "${names[@]/%/.o.xz}" | LC_ALL=C sort)
    has=$(cd "dist/$1" && find . -type f | sed 's,^\./,,' | LC_ALL=C sort)
    [ "$has" = "$wanted" ] || fail "$1: other files than the objects and PROVENANCE"
    mkdir -p "$work/dist/$1"
    WKT_PROCESSOR=$1 dist/objects.sh "$work/dist/$1" "${names[@]}" || exit 1
}

# noticed PROCESSOR: NOTICE names the crates whose code is in its objects
noticed() {
    diff <(grep '^    wkt' dist/NOTICE) <(dist/crates_of.sh "$work/dist/$1") || fail "$1: NOTICE says another crate than the objects"
}

# What was built here: of x86_64 by the gate, of others where BUILT names it, as for refresh.sh.
archive=${WKT_C_LIB:-crates/wkt_c/out/libwkt_c.a}
mkdir "$work/x86_64"
[ ! -f "$archive" ] || ar p "$archive" > "$work/x86_64/wkt_c.o"
for name in wkt_command wktline wktstream; do
    [ ! -e "crates/$name/out/$name.o" ] || cp "crates/$name/out/$name.o" "$work/x86_64"
done
kit=$(command -v rt > /dev/null && rt version)
now="$(git rev-parse HEAD:crates) $(git rev-parse HEAD:crates.txt)"
[ -z "$(git status --porcelain -- crates crates.txt)" ] || now="$now changed"

# compared PROCESSOR: its age, and whether what was built here has the same bytes
compared() {
    local name built age commit same=() other=()
    of() { sed -n "s/^$1  *//p" "dist/$processor/PROVENANCE"; }
    processor=$1
    for name in "${names[@]}"; do
        built=$work/$processor/$name.o
        [ -e "$built" ] || built=${BUILT:-/nowhere}/$processor/$name.o
        [ -e "$built" ] || continue
        if cmp -s "$work/dist/$processor/$name.o" "$built"; then same+=("$name"); else other+=("$name"); fi
    done
    if [ "$now" = "$(of crates) $(of crates.txt)" ]; then
        [ "${#other[@]}" = 0 ] || [ "$kit" != "$(of kit)" ] || fail "$processor: these sources and this kit gave other bytes for: ${other[*]}"
        age="of these sources"
    else
        commit=$(of commit)
        age="of commit ${commit:0:12}, $(git rev-list --count "$commit..HEAD" 2> /dev/null || echo '?') commits ago, of which $(
            git rev-list --count "$commit..HEAD" -- crates crates.txt 2> /dev/null || echo '?') change crates/"
    fi
    echo "dist: $processor: $age; built here: ${#same[@]} with the same bytes${other[*]:+; with other bytes, by $kit: ${other[*]}}"
}

for processor in $processors; do
    unpacked "$processor"
    noticed "$processor"
    compared "$processor"
done
# (It compares the module that it is of with wasm/wkt.wasm.)
[ ! -e dist/c/wkt_module.c.xz ] || dist/objects.sh "$work" wkt_module.c || exit 1
# With today's header, C and keys. (Of this processor.)
RUN='' WKT_C_LIB=dist make -s -C dist check O="$work/out" > "$work/said" 2>&1 || { tail -n 20 "$work/said"; fail "doesn't fit these sources: dist/refresh.sh renews it"; }
sed 's/^/dist: /' "$work/said"
