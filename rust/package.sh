#!/bin/sh
# package.sh FOLDER: makes the package that `cargo publish` sends, FOLDER/wkt_proved-VERSION.crate, and builds it; FOLDER/crate has its
# sources. It carries portable C, so it is built wherever cargo and a C compiler are. The crates that it depends on are those that
# cargo has, else those of Debian's packages, else those of the network.
set -eu
[ $# = 1 ] || { sed -n 2,4p "$0" >&2; exit 2; }
unset CDPATH # with which `cd` says where it went
here=$(cd "$(dirname "$0")" && pwd)
root=$here/..
out=$(mkdir -p "$1" && cd "$1" && pwd)
to=$out/crate
version=$("$root/dist/version.sh")
work=$(mktemp -d)
trap 'rm -rf "$work"' EXIT
rm -rf "$to" "$out"/wkt_proved-*.crate
# The same folders as in a clone, since the C files include one another.
mkdir -p "$to/native/include" "$to/native/capi" "$to/native/dist/c"
cp -r "$here/README.md" "$here/FROM_WKT.md" "$here/build.rs" "$here/src" "$here/examples" "$to"
"$root/dist/version.sh" in "$here/Cargo.toml" | sed '/^# package.sh /d; /^publish = false$/d' > "$to/Cargo.toml"
cp "$root/LICENSE-MIT" "$root/LICENSE-APACHE" "$root/dist/NOTICE" "$to"
"$root/dist/version.sh" in "$root/include/wkt.h" > "$to/native/include/wkt.h"
cp "$root/capi/functions.h" "$root/capi/heap.c" "$root/capi/pointers.c" "$to/native/capi"
cp "$root/dist/c/wasm-rt.h" "$root/dist/c/wkt_portable.c" "$to/native/dist/c"
"$root/dist/objects.sh" "$to/native/dist/c" wkt_module.c
cd "$to"
# found [--offline]: the crates that it names are there
found() { cargo metadata "$@" --format-version 1 > /dev/null 2>&1; }
network=--offline
if ! found --offline; then
    debian=$root/tests/lib/cargo_home.sh
    if [ -e "$debian" ] && "$debian" "$work" > /dev/null && CARGO_HOME=$work found --offline; then
        export CARGO_HOME="$work"
    elif found; then
        network=
    else
        echo "package.sh: cargo finds no crates cc, geo-types and serde: it needs a network, or Debian's librust-cc-dev and librust-geo-types-dev" >&2
        exit 1
    fi
fi
# shellcheck disable=SC2086 # a word, or none
cargo package $network --allow-dirty --target-dir "$out/target"
cp "$out/target/package/wkt_proved-$version.crate" "$out"
