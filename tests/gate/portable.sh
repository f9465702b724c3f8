#!/usr/bin/env bash
# The library in portable C (dist/c): portable.sh [SYSTEM..]
#
# Without words: by gcc and by clang under ASan and UBSan it passes the tests of `make -C dist tests`, and answers the seeds and
# the corpus of the fuzz as the proved objects do, which capi/build.sh takes (WKT_C_LIB=dist: those of dist/). The C is generated
# anew, and is what is committed; where another version of wabt is installed, that is passed over, and said.
# A SYSTEM: the library for it, and those tests, and the same answers, by a cross compiler and an emulator: windows (mingw-w64,
# wine), s390x, aarch64, armhf, riscv64 (qemu-user), m32, musl. Each says what it takes from Debian if that isn't here.
#
# One compiler runs at a time: each takes up to 3 GB for the module. SKIP=clang passes clang over.
set -uo pipefail
cd "$(dirname "$0")/../.." || exit 1
dir=$(mktemp -d)
trap 'rm -rf "$dir"' EXIT
fail() { echo "portable: $*"; exit 1; }
skips() { case ",${SKIP:-}," in *",$1,"*) true ;; *) false ;; esac; }
# quiet WHAT COMMAND..: its words only where it fails
quiet() {
    local what=$1
    shift
    "$@" > "$dir/said" 2>&1 || { tail -n 30 "$dir/said"; fail "$what"; }
}

python3 tests/fuzz/seeds.py "$dir/texts" crates/wkt_tables/stdin crates/wktline/stdin tests/fuzz/corpus.txt || fail "no texts"
# answered FOLDER: what its library answers to them, in FOLDER/answered
answered() {
    local run=${2:-} exe=${3:-}
    quiet "$1: answers.c isn't compiled" "${cc[@]}" -Wall -Wextra -Werror -I"$1" tests/gate/answers.c "$1/libwkt.a" ${link[@]+"${link[@]}"} -o "$1/answers$exe"
    (cd "$dir/texts" && find . -type f -print0 | LC_ALL=C sort -z | xargs -0 -n 500 $run "$1/answers$exe" | tr -d '\r') > "$1/answered" || fail "$1: a call ends the program"
}
# as_objects FOLDER WHAT
as_objects() {
    cmp -s "$1/answered" "$dir/objects/answered" || { diff "$1/answered" "$dir/objects/answered" | head -n 6; fail "$2: another answer"; }
    echo "portable: $2: the tests pass, and $(wc -l < "$1/answered") texts are answered as by the proved objects"
}
link=() cc=(gcc -O1)
quiet "the library of the objects isn't built" capi/build.sh "$dir/objects"
answered "$dir/objects"

# sanitized COMPILER: under ASan and UBSan, with which more than -O0 takes minutes for the module. Its C reaches the memory by
# the loads and stores of wasm-rt.h alone: here each of them is called, and so compiled and checked once, where `always_inline`
# would put it, with its checks, in 25,000 places. Both compilers look at the same lines of C, with all checks of both sanitizers.
sanitized() {
    local flags="-O1 -fsanitize=address,undefined -fno-sanitize-recover" out=$dir/$1
    quiet "$1: the tests fail under ASan and UBSan" env WKT_C_LIB=portable make -s -C dist tests O="$out" CC="$1" CFLAGS="$flags" MODULE_FLAGS="-O0 -Dalways_inline=" LDFLAGS="-fsanitize=address,undefined"
    cc=("$1") link=("-fsanitize=address,undefined")
    answered "$out"
    as_objects "$out" "$1 under ASan and UBSan"
    rm -r "$out"
}

generated() {
    local made version
    quiet "the C isn't unpacked" dist/objects.sh "$dir" wkt_module.c
    made=$(sed -n '1s/.*of wabt \([^ ]*\) made.*/\1/p' "$dir/wkt_module.c")
    version=$(wasm2c --version 2> /dev/null)
    if [ "$made" != "$version" ]; then
        echo "portable: wabt $made made the C; here is ${version:-none}, so it isn't made anew" | tee -a "${NOT_RUN:-/dev/null}"
        return
    fi
    quiet "the C isn't made" dist/c/make.sh "$dir/again.c"
    cmp "$dir/wkt_module.c" "$dir/again.c" || fail "wabt $version makes another C of dist/wasm/wkt.wasm: dist/c/make.sh renews it"
    echo "portable: wabt $version makes this C of dist/wasm/wkt.wasm, $(wc -c < "$dir/again.c") bytes"
}

# system NAME
system() {
    local run='' exe='' packages flags=-O2 out=$dir/$1
    link=()
    case $1 in
        windows) cc=(x86_64-w64-mingw32-gcc-posix) run=wine exe=.exe link=(-static) packages="gcc-mingw-w64-x86-64-posix wine64 wine" ;;
        s390x | aarch64 | riscv64) cc=("$1-linux-gnu-gcc") run="qemu-$1-static -L /usr/$1-linux-gnu" packages="gcc-$1-linux-gnu libc6-dev-$1-cross qemu-user-static" ;;
        armhf) cc=(arm-linux-gnueabihf-gcc) run="qemu-arm-static -L /usr/arm-linux-gnueabihf" packages="gcc-arm-linux-gnueabihf qemu-user-static" ;;
        m32) cc=(gcc -m32) packages="gcc-12-multilib libc6-dev-i386" ;;
        musl) cc=(musl-gcc) link=(-static) packages=musl-tools ;;
        *) fail "$1 is no system that is known here" ;;
    esac
    command -v "${cc[0]}" > /dev/null && { [ -z "$run" ] || command -v "${run%% *}" > /dev/null; } || fail "$1: install ${packages/dev-aarch64/dev-arm64}"
    export WINEDEBUG=-all WINEPREFIX=$dir/wine
    quiet "$1: the tests fail" env WKT_C_LIB=portable make -s -C dist tests O="$out" CC="${cc[*]}" RUN="$run" CFLAGS="$flags" LDFLAGS="${link[*]-}"
    answered "$out" "$run" "$exe"
    as_objects "$out" "$1"
    [ "$1" != windows ] || lines_of_windows "$out"
    rm -r "$out"
}

# Line ends and other bytes pass through a filter as they are: a return is white space, and a byte of 26 ends nothing.
lines_of_windows() {
    printf 'POINT(1 2)\r\nPOINT(3\r4)\n\032\r\n\r\nPOINT(5 6)' > "$dir/in"
    printf 'POINT(1 2)\nPOINT(3 4)\nrefused\nrefused\nPOINT(5 6)\n' > "$dir/wanted"
    wine "$1/stream.exe" < "$dir/in" > "$dir/got" || fail "windows: the filter ends with $?"
    cmp "$dir/got" "$dir/wanted" || fail "windows: the filter gives other bytes"
    echo "portable: windows: a filter gives the bytes that it gives on Linux"
}

if [ $# = 0 ]; then
    generated
    sanitized gcc
    skips clang || sanitized clang
else
    for name; do system "$name"; done
fi
