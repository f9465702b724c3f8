#!/usr/bin/env bash
# Tests the extension over the library in FOLDER, from SQLite's shell and from Python: test.sh [FOLDER]
#
# FOLDER has wkt.h and libwkt.a; it is WKT_LIB_DIR without an argument, and capi/out without that. It needs SQLite with
# its headers, gcc and make, and a Python whose sqlite3 loads extensions.
set -eu
unset CDPATH # with which `cd` says where it went
here=$(cd "$(dirname "$0")" && pwd)
wkt=${1:-${WKT_LIB_DIR:-$here/../capi/out}}
[ -f "$wkt/libwkt.a" ] || "$here/../capi/build.sh" "$wkt" || { echo "no libwkt.a in $wkt: capi/build.sh makes it"; exit 1; }
wkt=$(cd "$wkt" && pwd)
command -v sqlite3 > /dev/null || { echo "no sqlite3: not run"; exit 1; }
dir=$(mktemp -d /tmp/wkt.XXXXXX)
trap 'rm -rf "$dir"' EXIT
cp "$here"/test.{sql,py} "$dir"
cd "$dir"
# make takes no folders whose names have a space or the like, so it gets links to them.
ln -s "$here/.." clone
ln -s "$wkt" linked
here=$dir/clone/sqlite wkt=$dir/linked
make -s -f "$here/Makefile" WKT_LIB_DIR="$wkt" CFLAGS="-O2 -Werror"
[[ $(readelf -d mod_wkt.so) == *BIND_NOW* ]] && [[ $(nm -D mod_wkt.so) == *__stack_chk_fail* ]] || { echo "mod_wkt.so isn't hardened"; exit 1; }
[ "$(nm -D --defined-only mod_wkt.so | sed 's/.* T //' | paste -sd ' ')" = "sqlite3_modwkt_init sqlite3_wkt_init" ] || { echo "mod_wkt.so has other names"; exit 1; }
# asked [VARIABLE=..]: the answers of the statements of test.sql. The shell's own words around an error differ from version
# to version.
asked() { { env "$@" sqlite3 :memory: < test.sql 2>&1 || true; } | sed 's/^.*[Ee]rror[^:]* near line \([0-9]*\): /\1: /; s/ ([0-9]*)$//'; }
asked > said
[ -z "${RESULTS:-}" ] || cp said "$RESULTS"
diff "$here/expected" said || { echo "sqlite3: other answers"; exit 1; }
echo "sqlite3: $(grep -c ';$' test.sql) statements as expected"
# What README.md shows, word for word.
sed -n '/^```sql$/,/^```$/p' "$here/README.md" | grep -v '^```' > page.sql
[ "$(grep -c ';$' page.sql)" -gt 2 ]
sqlite3 -bail -cmd '.load ./mod_wkt' :memory: < page.sql || { echo "README.md: its statements fail"; exit 1; }
sed -n 's/^sqlite> //p' "$here/README.md" | { sqlite3 -cmd '.load ./mod_wkt' :memory: 2>&1 || true; } > said
grep -qF "$(sed -n '/^sqlite> /{n;p}' "$here/README.md")" said || { echo "README.md: another error"; cat said; exit 1; }
# The statements of test.sql by an extension that looks for errors of memory and of arithmetic.
mkdir checked
mv mod_wkt.so checked
make -s -f "$here/Makefile" WKT_LIB_DIR="$wkt" CFLAGS="-O1 -g -Werror -fsanitize=address,undefined -fno-sanitize-recover=all"
asked LD_PRELOAD="$(gcc -print-file-name=libasan.so) $(gcc -print-file-name=libubsan.so)" > said
diff "$here/expected" said || { echo "sqlite3: other answers under the sanitizers"; exit 1; }
# A text of which twice the length is more than SQLite allocates at once, which here is 1000 bytes.
rm mod_wkt.so
make -s -f "$here/Makefile" WKT_LIB_DIR="$wkt" CFLAGS="-O2 -Werror -DMOST_BYTES=1000"
long="'point(1 2' || printf('%700s', ')')"
long="SELECT wkt_canonical($long), wkt_or_null($long || 'x') IS NULL, wkt_same($long, 'POINT(1 2)'), wkt_num_points($long)"
[ "$(sqlite3 -cmd '.load ./mod_wkt' :memory: "$long" 2>&1)" = "POINT(1 2)|1|1|1" ] || { echo "a long text has another answer"; exit 1; }
mv checked/mod_wkt.so .
# No memory to look for why a text is refused: one of 1000 bytes takes 12008 there, in a dialect.
printf 'void *__libc_malloc(unsigned long);\nvoid *malloc(unsigned long size) { return size == 12008 ? 0 : __libc_malloc(size); }\n' > little.c
gcc -shared -fPIC -fno-builtin little.c -o little.so
for call in wkt_canonical wkt_explain wkt_explain_place wkt_explain_cause; do
    said=$(LD_PRELOAD=./little.so sqlite3 -cmd '.load ./mod_wkt' :memory: "SELECT $call(printf('%-1000s', 'POINT(1 2'), 18, 'ewkt')" 2>&1 || true)
    [[ $said == *"out of memory"* ]] || { echo "$call where there is no memory: $said"; exit 1; }
done
echo "sqlite3: no complaint of ASan or UBSan"
for python in /usr/bin/python3 python3 none; do
    "$python" -c 'import sqlite3; sqlite3.connect(":memory:").enable_load_extension(True)' 2> /dev/null && break
done
[ "$python" != none ] || { echo "no Python that loads extensions: not run from Python"; exit 1; }
# On a processor that the library isn't built for.
mkdir library
cp "$wkt"/{wkt.h,libwkt.a} library
printf 'int wkt_supported(void);\nint wkt_supported(void) { return 0; }\n' > unsupported.c
gcc -fPIC -c unsupported.c
objcopy --redefine-sym wkt_supported=is_supported library/libwkt.a
ar r library/libwkt.a unsupported.o
make -s -C library -f "$here/Makefile" WKT_LIB_DIR="$PWD/library"
[[ $(sqlite3 :memory: ".load library/mod_wkt" 2>&1) == *"wkt: the processor is not supported"* ]] || { echo "loaded on a processor that isn't supported"; exit 1; }
"$python" test.py "$dir" "$wkt" "$here/.."
echo "SQLite $(sqlite3 --version | cut -d ' ' -f 1): all as expected"
