#!/usr/bin/env bash
# Builds the library for C by tests/gate/c_library.sh, which says what that needs, and runs its callers in C and C++. With
# WKT_C_BUILT=1 the library in capi/out is taken as it is. (./check c compares the keys of tests/data/keys.tsv.)
#
# What a machine lacks fails (tests/needs.sh installs it), unless SKIP names it: SKIP=c++,valgrind tests/gate/c_callers.sh.
# The last line says what was skipped.
set -u
cd "$(dirname "$0")/../.." || exit 1
fail() { echo "$*"; exit 1; }
skips() { case ",${SKIP:-}," in *",$1,"*) true ;; *) false ;; esac; }
# needs NAME COMMAND: the command is there, or SKIP names it
needs() { skips "$1" || command -v "$2" > /dev/null || fail "no $2: tests/needs.sh installs it, SKIP=$1 passes it over"; }

skip=${SKIP:-}
for name in ${skip//,/ }; do
    case $name in valgrind | c++) ;; *) echo "SKIP: $name is skipped by other scripts, or no name" ;; esac
done
cc=${CC:-$(command -v gcc || command -v clang || command -v cc)}
[ -n "$cc" ] || fail "no C compiler: tests/needs.sh installs one"
needs valgrind valgrind
needs c++ g++

dir=$(mktemp -d)
trap 'rm -rf "$dir"' EXIT
out=$PWD/capi/out
[ -n "${WKT_C_BUILT:-}" ] || CC=$cc tests/gate/c_library.sh || fail "no library for C"

# The exported names are those of the header.
sed -n 's/.*\(wkt_[a-z_]*\)(.*/\1/p' include/wkt.h | grep -vx wkt_status | sort -u > "$dir/declared"
nm -D --defined-only "$out/libwkt.so" | sed 's/.* //' | grep -vx WKT_0 > "$dir/versioned"
grep -vqE '@@WKT_0$' "$dir/versioned" && fail "libwkt.so: a name of another version"
sed 's/@.*//' "$dir/versioned" | sort > "$dir/exported"
cmp -s "$dir/declared" "$dir/exported" || { diff "$dir/declared" "$dir/exported"; fail "libwkt.so: other names"; }
# Two archives with proved code stand in one program: whatever else they define is local to each.
nm -g --defined-only "$out/libwkt.a" | sed -n 's/.* [A-Z] //p' | sort > "$dir/exported"
cmp -s "$dir/declared" "$dir/exported" || { diff "$dir/declared" "$dir/exported"; fail "libwkt.a: other names"; }
echo "libwkt.so and libwkt.a export the $(wc -l < "$dir/exported") functions of wkt.h, and nothing else"
while read -r name; do
    grep -qw "$name" packaging/release/man/wkt.3 || fail "wkt.3 doesn't name $name"
done < "$dir/declared"

wrap="-Wl,--wrap=malloc -Wl,--wrap=realloc"
# each NAME COMPILER FLAG..: the tests in C, compiled so, over $objects
objects=("$out/libwkt.a")
each() {
    local name=$1
    shift
    "$@" -Wall -Wextra -Werror -I"$out" -o "$dir/calls" capi/tests/{calls,texts,explain,dialects,events,columns,pointers}.c -x none "${objects[@]}" $wrap || fail "$name: not compiled"
    "$dir/calls" > "$dir/said" 2>&1 || { cat "$dir/said"; fail "$name: the tests fail"; }
    echo "$name: $(cat "$dir/said")"
}
each C "$cc" -O2
if ! skips valgrind; then
    valgrind -q --leak-check=full --error-exitcode=9 "$dir/calls" > "$dir/said" 2>&1 || { cat "$dir/said"; fail "valgrind: errors"; }
    [ "$(wc -l < "$dir/said")" = 1 ] || { cat "$dir/said"; fail "valgrind: words"; }
    echo "valgrind: nothing to report"
fi
each "C under ASan and UBSan" "$cc" -O1 -g -fsanitize=address,undefined -fno-sanitize-recover
skips c++ || each C++ g++ -O2 -x c++
# In place of heap.c:
objects=(capi/tests/processor.c "$out/pointers.o" "$out/wkt_c.o")
each "C on a processor that lacks something" "$cc" -O2 -DPROCESSOR
"$cc" -O1 -g -no-pie -fsanitize=undefined -fno-sanitize-recover -Wall -Wextra -Werror -o "$dir/empty" capi/tests/empty.c \
    -Wl,--unresolved-symbols=ignore-all || fail "empty: not compiled"
"$dir/empty" > "$dir/said" 2>&1 || { cat "$dir/said"; fail "NULL of size 0 is passed on"; }
echo "NULL of size 0: never passed on"

# A million levels on a small stack, and eight threads at once.
for flags in "-O2" "-O1 -g -fsanitize=thread"; do
    "$cc" $flags -Wall -Wextra -Werror -I"$out" -o "$dir/deep" capi/tests/deep.c "$out/libwkt.a" -pthread || fail "deep: not compiled"
    "$dir/deep" > "$dir/said" 2>&1 || { cat "$dir/said"; fail "deep: the tests fail ($flags)"; }
    echo "nesting and threads ($flags): $(cat "$dir/said")"
done

# The examples, and the output of wktline.
for example in show lines stream; do
    "$cc" -O2 -I"$out" -o "$dir/$example" capi/examples/$example.c "$out/libwkt.a" || fail "$example: not compiled"
done
"$dir/show" > "$dir/said" || fail "show fails"
# A refusal is said by its place and hint, and not by the message of the Rust crate, which may be about another place.
! sed -n 's/^message\t.*\t//p' docs/names.tsv | grep -qF -f - "$dir/said" || fail "show: a message of the Rust crate"
for words in 'at byte 10 `)` was expected: a third number needs Z or M' 'at byte 7 a second number was expected: commas separate' \
    'at byte 16 a second number was expected: with 18 places the number is read' 'at byte 6 a first number was expected: numbers have at most 6'; do
    grep -qF "$words" "$dir/said" || fail "show: it lacks $words"
done
[ "$(grep -c 'numbers have at most 6 places here' "$dir/said")" = 2 ] || fail "show: with WKT_WHOLE it says other places"
for example in lines stream; do
    "$dir/$example" < crates/wktline/stdin | cmp - crates/wktline/stdout || fail "$example: another output than wktline's"
    ! "$dir/$example" < crates/wktline/stdin > /dev/full || fail "$example: an output that is lost has status 0"
    ! "$dir/$example" < / || fail "$example: an input that can't be read has status 0"
done
echo "examples: the output of wktline, and its status where reading or writing fails"
# A line of 32 MB in reads of 1,400 bytes takes a second of the processor, and a minute if each of them is passed on.
"$cc" -O2 -I"$out" -Wl,--wrap=read -o "$dir/pieces" capi/examples/stream.c -x c - -x none "$out/libwkt.a" << 'END' || fail "stream: not compiled in pieces"
#include <unistd.h>
ssize_t __real_read(int file, void *to, size_t size);
ssize_t __wrap_read(int file, void *to, size_t size) { return __real_read(file, to, size < 1400 ? size : 1400); }
END
{ printf 'LINESTRING(' && yes '1234567.5 76543.25,' | head -n 1770000 | tr -d '\n' && echo '1 1)'; } > "$dir/long"
(ulimit -t 10 && exec "$dir/pieces" < "$dir/long" > "$dir/said") || fail "stream: a long line in pieces takes too long"
cmp "$dir/said" "$dir/long" || fail "stream: another answer to a long line"
echo "a line of 32 MB in pieces: answered in time"

echo "callers of the library for C: all passed; skipped: ${SKIP:-nothing}"
