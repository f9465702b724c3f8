#!/usr/bin/env bash
# sanitized.sh LIBWKT.SO: wkt._fast and the producer of the tests, compiled under AddressSanitizer and UBSan, with allocations
# that can be refused, and for the interpreter with assertions (python3-dbg), and the tests over them. PYTHON names another
# Python, of which PYTHON-dbg is the one with assertions; SKIP=dbg where that is lacking.
set -eu
here=$(cd "$(dirname "$0")" && pwd)
python=${PYTHON:-/usr/bin/python3}
work=$(mktemp -d)
trap 'rm -rf "$work"' EXIT
includes() { echo "-I$("$1" -c 'import sysconfig; print(sysconfig.get_paths()["include"])')"; }
wkt_h=-I$here/../../include
# tests NAME FOLDER ALLOWED COMMAND..: these tests with the package of that folder; what is skipped is one of ALLOWED
tests() {
    (cd "$2" && PYTHONPATH="$2:$here" "${@:4}" > said 2>&1) || { cat "$2/said"; echo "$1: the tests fail"; exit 1; }
    ! grep -E "skipped '|ERROR: AddressSanitizer|runtime error" "$2/said" | grep -vE "$3" || { echo "$1: a test was skipped, or something is wrong"; exit 1; }
    echo "$1: $(grep '^Ran' "$2/said"), $(tail -n 1 "$2/said")"
}
export WKT_LIB=$1 PYTHONMALLOC=malloc

asan=$work/asan dbg=$work/dbg
mkdir "$asan" && cp -r "$here/../wkt" "$asan" && rm -f "$asan"/wkt/*.so && cp -r "$asan" "$dbg"
flags=(-g -O1 -Wall -Wextra "-fsanitize=address,undefined" -fno-sanitize-recover=undefined -fno-omit-frame-pointer -fPIC -shared "$(includes "$python")")
gcc "${flags[@]}" -DIN_FAST -c "$here/refuse.c" -o "$work/refused.o"
gcc "${flags[@]}" "$wkt_h" -fvisibility=hidden -Dcalloc=refused_calloc -Drealloc=refused_realloc -Dfree=refused_free "$here"/../src/*.c "$work/refused.o" -o "$asan/wkt/_fast.abi3.so"
for name in arrow_peer refuse; do gcc "${flags[@]}" "$here/$name.c" -o "$asan/$name.so"; done
# The process has the sanitizer's allocator from its start, and Python's own goes there.
tests "under sanitizers" "$asan" 'none' env LD_PRELOAD="$(gcc -print-file-name=libasan.so) $(gcc -print-file-name=libubsan.so)" ASAN_OPTIONS=detect_leaks=0 \
    UBSAN_OPTIONS=print_stacktrace=1 "$python" -W error -m unittest -v test_arrow test_arrow_shared test_geoarrow_keys test_arrow_lent test_pack test_words test_dialects \
    test_interpreters

case ",${SKIP:-}," in *",dbg,"*) exit 0 ;; esac
flags=(-g -O1 -Wall -Wextra -Werror -fPIC -shared "$(includes "$python-dbg")")
gcc "${flags[@]}" "$wkt_h" -fvisibility=hidden "$here"/../src/*.c -o "$dbg/wkt/_fast.abi3.so"
gcc "${flags[@]}" "$here/arrow_peer.c" -o "$dbg/arrow_peer.so"
tests "with assertions" "$dbg" 'only under sanitizers' env PYTHONMALLOC=debug "$python-dbg" -X dev -W error -m unittest -v \
    test_arrow test_arrow_shared test_geoarrow_keys test_arrow_lent test_pack test_geoarrow test_streams test_words test_dialects test_arguments \
    test_interpreters
