#!/usr/bin/env bash
# build.sh: the ways in which the package is built and installed, without an index: pip install of the folder, of a git
# repository and as editable, python3 -m build, a wheel of a source package, with objects and of portable C; and that two wheels
# have the same bytes. It needs git, pip, venv and python3-build (tests/needs.sh). PYTHON names another Python.
set -eu
here=$(cd "$(dirname "$0")" && pwd)
top=$(cd "$here/../.." && pwd)
python=${PYTHON:-/usr/bin/python3}
work=$(mktemp -d)
trap 'rm -rf "$work"' EXIT
fail() { echo "build.sh: $*"; exit 1; }
unset PYTHONPATH WKT_LIB WKT_LIB_DIR WKT_FAST SOURCE_DATE_EPOCH
# wheel.sh has tested the fast module as it is compiled without CFLAGS; here it is compiled ten times, and need not be fast.
export WKT_C_LIB=${WKT_C_LIB:-dist} CFLAGS=-O0

# A clone that has nothing built, with what isn't committed yet.
mkdir "$work/clone"
(cd "$top" && git ls-files -co --exclude-standard -- .gitignore pyproject.toml python capi dist include 'LICENSE-*' tests/data/command tests/gate/command.sh |
    while read -r file; do [ ! -e "$file" ] || echo "$file"; done | tar -c -T - | tar -x -C "$work/clone")
git -C "$work/clone" init -q
git -C "$work/clone" add -A
git -C "$work/clone" -c user.name=tests -c user.email=tests@localhost commit -qm all

# The environments are without a pip, which takes longer to install than the package: that of the Python installs into them.
venv() { "$python" -m venv --without-pip "$work/$1"; }
pip() { "$python" -m pip --python "$work/$1" -q --disable-pip-version-check "${@:2}"; }
# works VENV: the package, its fast module and both ways to call the command, from a folder that has nothing of it
works() {
    (cd / && "$work/$1/bin/python" -c 'import wkt, wkt._fast; assert wkt.canonical("point(1 2.0)") == "POINT(1 2)"') || fail "$1: import wkt"
    [ "$(cd / && echo 'point(1 2.0)' | "$work/$1/bin/wkt" canon)" = 'POINT(1 2)' ] || fail "$1: wkt"
    [ "$(cd / && echo 'point(1 2.0)' | "$work/$1/bin/python" -m wkt canon)" = 'POINT(1 2)' ] || fail "$1: python -m wkt"
}
for name in top folder 'folder of two words' repository editable source; do
    venv "$name"
    case $name in
        top) pip top install --no-index "$work/clone" ;;
        folder*) pip "$name" install --no-index "$work/clone/python" ;;
        repository) pip $name install --no-index "git+file://$work/clone#subdirectory=python" ;;
        editable) pip $name install --no-index -e "$work/clone/python" ;;
        source)
            (cd "$work/clone/python" && "$python" -m build --no-isolation -o "$work/built" . > "$work/said" 2>&1) || { cat "$work/said"; fail "python3 -m build"; }
            pip $name install --no-index "$work"/built/*.tar.gz ;;
    esac
    works "$name"
    [ "$(git -C "$work/clone" status --porcelain)" = "" ] || { git -C "$work/clone" status --short; fail "$name: the clone has other files"; }
    echo "installed: $name"
done
echo '# an edit' >> "$work/clone/python/wkt/_version.py"
[ "$(cd / && "$work/editable/bin/python" -c 'import wkt; print(wkt.__file__)')" = "$work/clone/python/wkt/__init__.py" ] || fail "editable: another folder"
git -C "$work/clone" checkout -q .
WKT_BUILD=$("$work/clone/dist/version.sh") REST=yes "$top/tests/gate/command.sh" "$work/folder/bin/wkt" > "$work/said" || { cat "$work/said"; fail "the command wkt: other answers"; }
echo "the command wkt: $(tail -n 1 "$work/said")"
# A name that isn't UTF-8 is said, whichever way the command is called.
for command in "$work/folder/bin/wkt" "$work/folder/bin/python -m wkt"; do
    status=0
    $command check $'\xff' > "$work/said" 2>&1 || status=$?
    [ "$status: $(cat "$work/said")" = "2: wkt: an argument isn't UTF-8" ] || { cat "$work/said"; fail "$command: a name that isn't UTF-8"; }
done

# wheel NAME [VARIABLE=VALUE..]: one of the clone, in a folder of its own
wheel() {
    mkdir -p "$work/$1"
    env "${@:2}" "$python" -m pip wheel -q --no-index --no-deps -w "$work/$1" "$work/clone/python"
}
wheel one SOURCE_DATE_EPOCH=1700000000
mv "$work/clone" "$work/another folder of another name" && mkdir "$work/clone" && cp -r "$work/another folder of another name/." "$work/clone" && rm -rf "$work/another"*
(umask 077 && wheel two SOURCE_DATE_EPOCH=1700000000)
(cd "$work" && tar -xzf built/*.tar.gz && cd wkt_proved-*/ && SOURCE_DATE_EPOCH=1700000000 "$python" -m pip wheel -q --no-index --no-deps -w "$work/three" .)
cmp "$work"/one/*.whl "$work"/two/*.whl && cmp "$work"/one/*.whl "$work"/three/*.whl || fail "two wheels have other bytes"
mkdir "$work/again" && (cd "$work/clone/python" && "$python" -m build -s --no-isolation -o "$work/again" . > /dev/null)
cmp "$work"/built/*.tar.gz "$work"/again/*.tar.gz || fail "two source packages have other bytes"
echo "two wheels, and that of the source package, have the same bytes"

# Where no objects fit, the source package gives a wheel of portable C, without the command.
mkdir "$work/bare" && tar -xzf "$work"/built/*.tar.gz -C "$work/bare" && rm -r "$work"/bare/wkt_proved-*/native/dist/{x86_64,aarch64}
(cd "$work"/bare/wkt_proved-*/ && WKT_C_LIB=dist MODULE_FLAGS="-O0 -Dalways_inline=" "$python" -m pip wheel -q --no-index --no-deps -w "$work/portable" . > "$work/said" 2>&1) || { cat "$work/said"; fail "no wheel of portable C"; }
venv plain && pip plain install --no-index "$work"/portable/*.whl
(cd / && "$work/plain/bin/python" -c 'import wkt, wkt._fast; assert wkt.canonical(["point(1 2.0)", None]) == ["POINT(1 2)", None]
found = wkt.explain("POINT(1 x)")
assert found.start == 8, found
assert wkt.canonical("SRID=1;POINT(1e1 2)", dialect="ewkt,exponents") == "POINT(10 2)"') || fail "portable C: other answers"
[ ! -e "$work/plain/bin/wkt" ] && (cd / && ! "$work/plain/bin/python" -m wkt --version > "$work/said" 2>&1) || fail "portable C: it has a command"
grep -q 'portable C' "$work"/plain/lib/python3*/site-packages/wkt_proved-*/sboms/wkt.cdx.json || fail "portable C: the parts say another origin"
echo "a wheel of portable C is built of the source package"

# Where the fast module can't be compiled, the wheel goes without it, and says so; WKT_FAST=1 fails.
# without WORDS CODE [VARIABLE=VALUE..]
without() {
    local built
    built=$(cd "$work/clone/python" && env "${@:3}" "$python" -c "$2; import sys, backend; print(backend.build_wheel(sys.argv[1]))" "$work" 2> "$work/said") || { cat "$work/said"; fail "no wheel: $1"; }
    grep -q "^wkt: the fast module $1; the package goes without it, and calls the library by ctypes\$" "$work/said" || { cat "$work/said"; fail "not said: $1"; }
    compgen -G "$work/wkt_proved-*-py3-none-*.whl" > /dev/null || fail "$1: it is $built"
    rm "$work"/wkt_proved-*.whl
    ! (cd "$work/clone/python" && env WKT_FAST=1 "${@:3}" "$python" -c "$2; import sys, backend; backend.build_wheel(sys.argv[1])" "$work") > "$work/said" 2>&1 || fail "WKT_FAST=1: $1"
    grep -q "^the fast module $1\$" "$work/said" || { cat "$work/said"; fail "WKT_FAST=1, not said: $1"; }
}
without 'needs Python.h' 'import sysconfig; sysconfig.get_paths = lambda: {"include": "/nowhere"}'
without "doesn't compile" pass CFLAGS=-DPyInit__fast=1
echo "without the fast module it is built too"
# Debian has no free-threaded Python, but since 3.13 headers that know it.
if "$python" -c 'import sys; sys.exit(sys.version_info < (3, 13))'; then
    headers=$("$python" -c 'import sysconfig; print(sysconfig.get_paths()["include"])')
    for file in "$top"/python/src/*.c; do
        gcc -Wall -Wextra -Werror -fsyntax-only -DPy_GIL_DISABLED=1 -I"$headers" -I"$top/include" "$file" || fail "free-threaded: $file"
    done
    echo "the fast module compiles for free-threaded Python"
fi

wheel flags CFLAGS='-g -O1' LDFLAGS=-Wl,-soname,named
(cd "$work/flags" && "$python" -m zipfile -e ./*.whl . && readelf -SdW wkt/_fast.abi3.so) > "$work/said"
grep -q debug_info "$work/said" && grep -q 'soname: \[named\]' "$work/said" || fail "CFLAGS and LDFLAGS aren't taken"
# The tag is that of the newest glibc that a file asks for; the parts have the sums of the files; the licences are there.
(cd "$work/one" && "$python" -m zipfile -e ./*.whl . && cd wkt_proved-*.dist-info && ls licenses/LICENSE-APACHE licenses/LICENSE-MIT > /dev/null) || fail "licences"
newest=$( (cd "$work/one/wkt" && objdump -T libwkt.so _command _fast.abi3.so) | grep -o 'GLIBC_2\.[0-9]*' | cut -d. -f2 | sort -n | tail -n 1)
[ "$newest" -ge 17 ] || newest=17
compgen -G "$work/one/wkt_proved-*-cp311-abi3-manylinux_2_${newest}_$(uname -m).whl" > /dev/null || fail "the tag isn't that of glibc 2.$newest"
(cd "$work/one" && "$python" - <<'PY') || fail "the parts list other files"
import glob, hashlib, json
parts = json.load(open(glob.glob("*.dist-info/sboms/*.json")[0]))["components"]
assert sorted(part["name"] for part in parts) == ["_command", "_fast.abi3.so", "libwkt.so"], parts
for part in parts:
    assert part["hashes"][0]["content"] == hashlib.sha256(open("wkt/" + part["name"], "rb").read()).hexdigest(), part
PY
echo "flags, licences, tag and parts are as they should be"
