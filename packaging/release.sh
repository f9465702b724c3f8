#!/usr/bin/env bash
# Makes what is given to people who have no prover: of what is committed in dist/, which dist/refresh.sh renews.
#
# release.sh [OUT]: into OUT (packaging/out): wkt-proved-VERSION/ and its .tar.gz, a source release that needs a C compiler
# and make, with the proved objects of each processor and what is built over them: the library, the programs, the
# extensions, the Python package, the Rust crate; wheels and a source package for Python; the package for JavaScript, as npm
# lays it out; and beside them what they are made of and their sums (sbom.py). It runs `make check` in the release.
# VERSION is that of dist/version.sh: between releases it has the commit. A release has a date in CHANGELOG.md, and nothing in
# packaging/addresses is a placeholder. All times are that date, or that of the commit while there is none.
# Wheels are made for each processor whose compiler is here (PROCESSOR-linux-gnu-gcc; for its fast module also the headers of its
# Python, as libpython3-dev:arm64), for Python 3.8 on and 3.11 on by PYTHON (/usr/bin/python3), and by python3.13t, if there is one.
set -eu
unset WKT_C_LIB WKT_LIB_DIR # which would put another library in the place of its own
unset CDPATH
here=$(cd "$(dirname "$0")" && pwd)
root=$(dirname "$here")
version=$("$root/dist/version.sh")
case $version in *-dev*) ;; *) "$root/tests/gate/version.py" --placeholders || { echo "release.sh: fill these in, then tests/gate/version.py --write $version"; exit 1; } ;; esac
out=$(mkdir -p "${1:-$here/out}" && cd "${1:-$here/out}" && pwd)
to=$out/wkt-proved-$version
date=$(sed -n "s/^## \[$version\] - \([0-9-]*\)\$/\1/p" "$root/CHANGELOG.md")
when=$(if [ -n "$date" ]; then date -u -d "$date" +%s; else git -C "$root" log -1 --format=%ct; fi)
# What stands in a clone, at the same place there.
parts=(pyproject.toml capi include dist postgres sqlite rust python javascript web/make.py tests/data/command tests/gate/command.sh tests/gate/keys.c
    tests/data/keys.tsv crates/wktline/stdin crates/wktline/stdout packaging/release/man packaging/release/completions LICENSE-APACHE LICENSE-MIT CHANGELOG.md
    # The pages that the others lead to.
    docs/{ABI,API,CALLING,COMMAND,DIALECTS,FILES,FROM_OTHER_TOOLS,GLOSSARY,GRAMMAR,KEYS,PROVED,SUPPORT}.md docs/names.tsv
    SECURITY.md bench/README.md tests/README.md tests/fuzz/README.md)

# Of an earlier run, whose version may have been another.
rm -rf "$out"/wkt-proved-*.{tar.gz,tgz,spdx.json} "$out"/wkt-proved-*/ "$out"/wkt_proved-*.{tar.gz,whl} "$out"/*.deb "$out/SHA256SUMS"
mkdir -p "$to"
git -C "$root" ls-files -z -- "${parts[@]}" | tar -C "$root" --null -T - -cf - | tar -C "$to" -xf -
for file in include/wkt.h python/wkt/_version.py rust/Cargo.toml javascript/package.json postgres/META.json; do
    "$root/dist/version.sh" in "$root/$file" > "$to/$file"
done
cp -r "$here"/release/{Makefile,README,debian} "$to"
debian=$("$root/dist/version.sh" debian)
{
    printf 'wkt-proved (%s) unstable; urgency=medium\n\n  * CHANGELOG.md has what is new.\n\n' "$debian"
    sed -n "s/^Maintainer: \(.*\)/ -- \1  $(date -u -R -d "@$when")/p" "$to/debian/control"
} > "$to/debian/changelog"
# The exported names are those of the header.
{
    echo "libwkt.so.0 libwkt0 #MINVER#"
    echo " WKT_0@WKT_0 $debian"
    sed -n 's/.*\(wkt_[a-z_]*\)(.*/\1/p' "$to/include/wkt.h" | grep -vx wkt_status | LC_ALL=C sort -u | sed "s/.*/ &@WKT_0 $debian/"
} > "$to/debian/libwkt0.symbols"
# Its bytes depend on the files alone: their time is the release's, their mode no umask's.
tar -C "$out" --format=gnu --sort=name --owner=0 --group=0 --numeric-owner --mode=u+rwX,go=rX --mtime="@$when" -cf - "wkt-proved-$version" |
    gzip -9n > "$to.tar.gz"

make -s -C "$to" check
# python INTERPRETER CALL [VARIABLE=VALUE..]: has the package's own backend make what the call says
python() { (cd "$to/python" && env SOURCE_DATE_EPOCH="$when" "${@:3}" "$1" -B -c "import backend; backend.$2('$out')"); }
interpreter=${PYTHON:-/usr/bin/python3}
python "$interpreter" build_sdist
for processor in x86_64 aarch64; do
    built=dist/out cc=${CC:-cc}
    if [ "$processor" != "$(uname -m)" ]; then
        built=dist/$processor-out cc=$processor-linux-gnu-gcc
        command -v "$cc" > /dev/null || continue
        make -s -C "$to/dist" O="${built#dist/}" CC="$cc"
    fi
    python "$interpreter" build_wheel WKT_LIB_DIR="$to/$built" CC="$cc" WKT_FAST=0
    headers=$("$interpreter" -c 'import sysconfig; print(sysconfig.get_paths()["include"])')
    ! echo '#include <Python.h>' | "$cc" -I"$headers" -E - > /dev/null 2>&1 || python "$interpreter" build_wheel WKT_LIB_DIR="$to/$built" CC="$cc" WKT_FAST=1
    [ "$processor" != "$(uname -m)" ] || ! command -v python3.13t > /dev/null || python python3.13t build_wheel WKT_LIB_DIR="$to/$built" CC="$cc" WKT_FAST=1
done
rm -rf "$to"/dist/{,*-}out
"$root/javascript/pack.sh" "$root/dist/wasm/wkt.wasm" "$out" "$when" > /dev/null
"$here/sbom.py" "$out"
(cd "$out" && ls -l ./*.tar.gz ./*.whl ./*.tgz ./*.spdx.json SHA256SUMS)
