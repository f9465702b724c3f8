#!/usr/bin/env bash
# Installs what release.sh and debs.sh have made, each where nothing of it is, and calls each once.
#
# test.sh [OUT]: what is in OUT (packaging/out). Parts, all without SKIP=NAME,NAME: source (make install below an empty
# folder), bytes (the release again, under another umask), dated (a clone with a date in CHANGELOG.md), wheel (a fresh venv),
# javascript (an empty folder), faces (the extensions and the crate, of the unpacked release), debs (an empty Debian by
# debootstrap, as root, with the network), vendor (an empty repository, by rt try). The last line says what was skipped.
set -u
unset WKT_C_LIB WKT_LIB_DIR # which would put another library in the place of the release's
unset CDPATH
here=$(cd "$(dirname "$0")" && pwd)
root=$(dirname "$here")
out=$(cd "${1:-$here/out}" && pwd) || exit 1
dir=$(mktemp -d)
trap 'rm -rf "$dir"' EXIT
fail() { echo "FAILED $*"; exit 1; }
skips() { case ",${SKIP:-}," in *",$1,"*) true ;; *) false ;; esac; }
python=${PYTHON:-/usr/bin/python3}
text='point ( 1 2.50 )' answer='POINT(1 2.5)'
version=$(cd "$out" && echo wkt-proved-*.tar.gz) && version=${version#wkt-proved-} && version=${version%.tar.gz}

# calls PREFIX-COMMAND..: the three programs answer there
calls() {
    [ "$(echo "$text" | "$@" wkt canon)" = "$answer" ] || fail "$*: wkt"
    [ "$(echo "$text" | "$@" wktline)" = "$answer" ] || fail "$*: wktline"
    [ "$(echo "$text" | "$@" wktstream)" = "$answer" ] || fail "$*: wktstream"
    [ "$(echo "$text" | "$@" sh -c 'cat > /tmp/wkt.$$ && wkt-parallel canon -- /tmp/wkt.$$; rm /tmp/wkt.$$')" = "$answer" ] || fail "$*: wkt-parallel"
    # Each says which release it is.
    [ "$("$@" wkt --version)" = "wkt $version" ] || fail "$*: wkt --version"
}

source_release() {
    tar -C "$dir" -xzf "$out"/wkt-proved-*.tar.gz
    (cd "$out" && sha256sum --quiet -c SHA256SUMS) || fail "sums"
    "$root/tests/gate/pages.py" --links "$dir"/wkt-proved-*/ > "$dir/log" || { cat "$dir/log"; fail "links"; }
    make -s -C "$dir"/wkt-proved-*/ install DESTDIR="$dir/root" PREFIX=/usr > "$dir/log" 2>&1 || { cat "$dir/log"; fail "make install"; }
    calls env PATH="$dir/root/usr/bin:$PATH"
    export PKG_CONFIG_PATH=$dir/root/usr/lib/pkgconfig PKG_CONFIG_SYSROOT_DIR=$dir/root
    local flags
    read -ra flags <<< "$(pkg-config --cflags --libs wkt)"
    cc "$root/capi/examples/show.c" "${flags[@]}" -o "$dir/show" || fail "show.c"
    LD_LIBRARY_PATH=$dir/root/usr/lib "$dir/show" | grep -q . || fail "show"
    unset PKG_CONFIG_PATH PKG_CONFIG_SYSROOT_DIR
    for page in "$dir"/root/usr/share/man/man1/{wkt,wktline,wkt-parallel}.1 "$dir"/root/usr/share/man/man3/wkt.3; do
        [ -z "$(groff -man -Tutf8 -ww "$page" 2>&1 > "$dir/page")" ] || fail "groff: $page"
    done
    echo "source release: installed, each called"
}

bytes() {
    local file
    (umask 077 && "$here/release.sh" "$dir/again" > "$dir/log" 2>&1) || { tail -n 20 "$dir/log"; fail "release.sh under umask 077"; }
    [ "$(cd "$dir/again" && echo ./*.{tar.gz,whl,tgz})" = "$(cd "$out" && echo ./*.{tar.gz,whl,tgz})" ] || fail "other files the second time"
    for file in "$dir"/again/*.{tar.gz,whl,tgz}; do
        cmp "$file" "$out/$(basename "$file")" || fail "another umask gives other bytes"
    done
    # Where debs.sh and rust/package.sh have run, the lists here have their packages too.
    for file in "$out"/*.{deb,crate}; do
        [ ! -e "$file" ] || cp "$file" "$dir/again"
    done
    "$here/sbom.py" "$dir/again"
    for file in "$dir"/again/{*.spdx.json,SHA256SUMS}; do
        cmp "$file" "$out/$(basename "$file")" || fail "other lists"
    done
    # Its files are readable, and of one day: that of its newest change.
    [ -z "$(tar -tvzf "$dir"/again/wkt-proved-*.tar.gz | awk '{ print $4 }' | sort -u | sed 1d)" ] || fail "files of two days"
    [ -z "$(tar -tvzf "$dir"/again/wkt-proved-*.tar.gz | grep -v '^[-ld]r[w-][x-]r-[x-]r-[x-]')" ] || fail "a file that others can't read"
    local said
    said=$(tar -xOzf "$dir"/again/wkt-proved-*.tar.gz --wildcards '*/debian/changelog' | sed -n 's/^ -- .*>  //p')
    [ "$(date -u -d "$said" +%F)" = "$(TZ=UTC0 tar -tvzf "$dir"/again/wkt-proved-*.tar.gz | awk 'NR == 1 { print $4 }')" ] || fail "files of another day than the changelog's"
    echo "release: the same bytes under umask 077, of the changelog's date"
}

# dated: a release needs addresses, and then each file says them, and the version without a commit
dated() {
    git clone -q --depth 1 "file://$root" "$dir/dated"
    local number name file said=$dir/dated/packaging/addresses
    number=$("$dir/dated/dist/version.sh" | sed 's/-.*//')
    sed -i "s/^\(## \[$number\] - \).*/\12031-02-03/" "$dir/dated/CHANGELOG.md"
    sed -i 's/^clone: .*/clone: ADDRESS/' "$said"
    "$dir/dated/tests/gate/version.py" --write "$number" > "$dir/log" || { cat "$dir/log"; fail "version.py --write $number"; }
    ! "$dir/dated/packaging/release.sh" "$dir/none" > "$dir/log" 2>&1 && grep -qx 'packaging/addresses: clone: ADDRESS' "$dir/log" || { cat "$dir/log"; fail "a release with a placeholder"; }
    for name in clone home maintainer security; do sed -i "s,^$name: .*,$name: https://here.test/$name," "$said"; done
    "$dir/dated/tests/gate/version.py" --write "$number" > "$dir/log" || { cat "$dir/log"; fail "version.py --write with addresses"; }
    for name in README.md:clone rust/Cargo.toml:home packaging/release/debian/control:maintainer postgres/META.json:maintainer SECURITY.md:security; do
        file=${name%:*}
        grep -qF "https://here.test/${name#*:}" "$dir/dated/$file" || fail "$file doesn't say packaging/addresses"
    done
    [ "$("$dir/dated/dist/version.sh") $("$dir/dated/dist/version.sh" python) $("$dir/dated/dist/version.sh" debian)" = "$number $number $number" ] || fail "a release says a commit"
    sed -i "s/\(WKT_VERSION \"$number\)/\1-dev/" "$dir/dated/include/wkt.h"
    ! "$dir/dated/tests/gate/version.py" > /dev/null || fail "-dev beside a date isn't seen"
    echo "a release: refused with placeholders, which are filled in from one file"
}

# faces: what else the release has is built where nothing else of the repository is, in a folder with a space
faces() {
    mkdir "$dir/the faces" && tar -C "$dir/the faces" --strip-components=1 -xzf "$out"/wkt-proved-*.tar.gz
    if ! skips sqlite; then
        make -s -C "$dir/the faces/sqlite" > "$dir/log" 2>&1 || { cat "$dir/log"; fail "make -C sqlite"; }
        [ "$(sqlite3 -cmd ".load '$dir/the faces/sqlite/mod_wkt'" :memory: "SELECT wkt_canonical('$text')")" = "$answer" ] || fail "mod_wkt"
    fi
    skips postgres || make -s -C "$dir/the faces/postgres" > "$dir/log" 2>&1 || { cat "$dir/log"; fail "make -C postgres"; }
    if ! skips rust; then
        "$root/tests/lib/cargo_home.sh" "$dir/cargo" || fail "cargo"
        CARGO_HOME=$dir/cargo CARGO_TARGET_DIR="$dir/the target" cargo run -q --offline --manifest-path "$dir/the faces/rust/Cargo.toml" --example show -- "$text" > "$dir/said" 2> "$dir/log" ||
            { cat "$dir/log"; fail "cargo run"; }
        grep -qF "$answer" "$dir/said" || { cat "$dir/said"; fail "the crate's example"; }
    fi
    echo "SQLite, PostgreSQL and Rust: built of the release"
}

wheel() {
    "$python" -m venv "$dir/venv"
    local start=$SECONDS
    "$dir/venv/bin/pip" install -q --no-index --pre --only-binary :all: --find-links "$out" wkt-proved || fail "pip install"
    local took=$((SECONDS - start))
    (cd / && "$dir/venv/bin/python" -c "import wkt, wkt._fast; assert wkt.canonical('$text') == '$answer', wkt.canonical('$text')
assert wkt.__version__.replace('.dev0+g', '-dev+') == '$version', wkt.__version__") || fail "import wkt"
    [ "$(echo "$text" | "$dir/venv/bin/wkt" canon)" = "$answer" ] || fail "the wheel's program wkt"
    echo "wheel: installed in $took s, called"
}

# javascript: the package, laid where npm would lay it
javascript() {
    mkdir -p "$dir/app/node_modules/wkt-proved"
    tar -C "$dir/app/node_modules/wkt-proved" --strip-components=1 -xzf "$out"/wkt-proved-*.tgz
    echo "import { load } from 'wkt-proved'; console.log((await load()).canonical('$text'));" > "$dir/app/app.mjs"
    [ "$(cd "$dir/app" && node app.mjs)" = "$answer" ] || fail "the package for JavaScript"
    [ "$(cd "$dir/app" && node -p "require('wkt-proved/package.json').version")" = "$version" ] || fail "the version of the package for JavaScript"
    (cd "$dir/app/node_modules/wkt-proved" && grep ' wkt.wasm$' PROVENANCE | sha256sum --quiet -c) || fail "PROVENANCE of the package for JavaScript"
    echo "package for JavaScript: called by its name; its module has the sum of PROVENANCE"
}

# in_root WORD..: runs in the Debian
in_root() { chroot "$dir/debian" env -i PATH=/usr/sbin:/usr/bin:/sbin:/bin DEBIAN_FRONTEND=noninteractive LC_ALL=C.UTF-8 "$@"; }

debs() {
    debootstrap --variant=minbase --include=python3-minimal,gcc,libc6-dev,pkg-config bookworm "$dir/debian" \
        "${DEBIAN_MIRROR:-http://deb.debian.org/debian}" > "$dir/log" 2>&1 || { tail -n 20 "$dir/log"; fail "debootstrap"; }
    cp "$out"/*_"$(dpkg --print-architecture)".deb "$root/capi/examples/show.c" "$dir/debian/tmp"
    local deb
    for deb in wkt-tools libwkt0 libwkt-dev python3-wkt libsqlite3-mod-wkt postgresql-15-wkt; do
        local start=$SECONDS
        in_root sh -c "apt-get install -y -q --no-install-recommends /tmp/${deb}_*.deb" > "$dir/log" 2>&1 || { tail -n 20 "$dir/log"; fail "$deb"; }
        echo "$deb: installed in $((SECONDS - start)) s"
    done
    calls in_root
    in_root sh -c 'ldconfig -p | grep -q libwkt.so.0' || fail "libwkt0"
    in_root sh -c 'cd /tmp && gcc show.c $(pkg-config --cflags --libs wkt) -o show && ./show | grep -q .' || fail "libwkt-dev"
    in_root python3 -c "import wkt; assert wkt.canonical('$text') == '$answer'" || fail "python3-wkt"
    in_root sh -c 'dpkg -S /usr/bin/wkt' | grep -q '^wkt-tools:' || fail "/usr/bin/wkt"
    in_root apt-get install -y -q --no-install-recommends sqlite3 > "$dir/log" 2>&1 || { tail -n 20 "$dir/log"; fail "sqlite3"; }
    [ "$(in_root sqlite3 -cmd '.load mod_wkt' :memory: "SELECT wkt_canonical('$text')")" = "$answer" ] || fail "libsqlite3-mod-wkt"
    in_root service postgresql start > "$dir/log" 2>&1
    echo "CREATE EXTENSION wkt; SELECT wkt_canonical('$text')" | in_root su postgres -c 'psql -qAt' > "$dir/said" 2> "$dir/log"
    in_root service postgresql stop > /dev/null 2>&1
    grep -qxF "$answer" "$dir/said" || { cat "$dir/log"; fail "postgresql-15-wkt"; }
    echo "Debian packages: installed, each called"
}

vendor() {
    mkdir -p "$dir/other/crates/mine/src"
    cp "$root/HANDLES" "$dir/other"
    : > "$dir/other/crates.txt"
    (cd "$dir/other" && rt new crates/theirs start_io > /dev/null) || fail "rt new"
    printf 'theirs:\nmine: wkt anyhow' > "$dir/other/crates.txt"
    "$here/vendor.sh" "$dir/other" > /dev/null || fail "vendor.sh"
    grep -qx 'mine: wkt anyhow' "$dir/other/crates.txt" || fail "a last line without a line feed"
    # The first program of docs/CALLING.md, and what it prints there.
    sed -n '/^## A first program$/,/^## Make/p' "$root/docs/CALLING.md" > "$dir/first"
    sed -n '/^```rust$/,/^```$/{//!p}' "$dir/first" > "$dir/other/crates/mine/src/main.rt"
    sed -n '/^\$ rt try$/,/^```$/{//!p}' "$dir/first" > "$dir/want"
    # Where `rt try` is ended from outside, as without memory, its only words are run=none.
    (cd "$dir/other/crates/mine" && rt try < /dev/null) > "$dir/said" 2> "$dir/log" && cmp "$dir/said" "$dir/want" ||
        { cat "$dir/log"; fail "rt try"; }
    # Again, with a crate more and then without it: the same files but for that; a change there stops it.
    cp -r "$dir/other" "$dir/before"
    "$here/vendor.sh" "$dir/other" wkt wkt_lines > /dev/null || fail "vendor.sh with a crate more"
    [ -d "$dir/other/crates/wkt_lines" ] || fail "wkt_lines isn't brought"
    "$here/vendor.sh" "$dir/other" > /dev/null || fail "vendor.sh again"
    diff -r "$dir/before" "$dir/other" > /dev/null || fail "brought again, other files"
    ! "$here/vendor.sh" "$dir/other" wkt_nowhere > /dev/null 2>&1 && diff -r "$dir/before" "$dir/other" > /dev/null || fail "an unknown crate isn't seen first"
    echo >> "$dir/other/crates/wkt_num/src/lib.rt"
    ! "$here/vendor.sh" "$dir/other" > /dev/null 2>&1 || fail "a change there isn't seen"
    echo "vendor: brought, called by rt try, brought again"
}

for part in source bytes dated wheel javascript faces debs vendor; do
    if ! skips "$part"; then
        case $part in source) source_release ;; *) "$part" ;; esac
    fi
done
echo "packaging: all passed${SKIP:+, skipped: $SKIP}"
