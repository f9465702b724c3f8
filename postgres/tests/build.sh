# Sourced by test.sh: what make builds anew, and what it installs.
mkdir "$dir/library" "$dir/built"
cp "$wkt"/{wkt.h,libwkt.a} "$dir/library"
cp "$here"/* "$dir/built" 2> /dev/null || true
# made [VARIABLE=..]: when wkt.so was made last, after another make
made() {
    make -s -C "$dir/built" PG_CONFIG="$config" WKT_LIB_DIR="$dir/library" "$@" > "$dir/make.log" 2>&1 || { wrong "build: make fails"; cat "$dir/make.log"; }
    stat -c %y "$dir/built/wkt.so"
}
before=$(made LDFLAGS= LDFLAGS_SL=)
is "build: nothing changed" "$before" "$(made)"
for file in library/wkt.h library/libwkt.a built/wkt_pg.h built/parts.h built/doubles.h built/dialects.h built/printable.h built/wkt_type.c; do
    touch "$dir/$file"
    after=$(made LDFLAGS= LDFLAGS_SL=)
    [ "$after" != "$before" ] || wrong "build: wkt.so isn't made anew after $file changed"
    before=$after
done
[[ $(readelf -d "$dir/built/wkt.so") == *BIND_NOW* ]] || wrong "build: wkt.so isn't linked with -z now"
[[ $(nm -D "$dir/built/wkt.so") == *__stack_chk_fail* ]] || wrong "build: wkt.so has no stack protector"
is "build: names of wkt.so" "Pg_magic_func _PG_init" "$(nm -D --defined-only "$dir/built/wkt.so" | sed -n 's/.* T //p' | grep -v pg_ | sort | paste -sd ' ')"
make -s -C "$dir/built" PG_CONFIG="$config" WKT_LIB_DIR="$dir/library" DESTDIR="$dir/installed" install > "$dir/make.log" 2>&1 || { wrong "build: make install fails"; cat "$dir/make.log"; }
is "build: what is installed" "$(cd "$here" && printf '%s\n' wkt*.control wkt*.sql wkt.so | sort)" "$(cd "$dir/installed" && find . -type f -printf '%f\n' | sort)"

# A server of 32 bits.
printf '#include "postgres.h"\n#undef SIZEOF_DATUM\n#define SIZEOF_DATUM 4\n#include "sort.c"\n' > "$dir/built/narrow.c"
make -s -C "$dir/built" PG_CONFIG="$config" WKT_LIB_DIR="$dir/library" narrow.o > "$dir/make.log" 2>&1 && wrong "build: compiled for a server of 32 bits"
grep -q 'wkt needs a server of 64 bits' "$dir/make.log" || wrong "build: a server of 32 bits: $(cat "$dir/make.log")"

# A library that takes memory by calloc too, as portable C does, and has none to say why a text is refused.
cat > "$dir/taken.c" <<'C'
#include <stdlib.h>
const char *wkt_version(void);
const char *wkt_version(void) {
    char *volatile at = calloc(100, 1000);
    const char *said = at && at[99999] == 0 ? "taken and given back" : "not 0";
    at = realloc(at, 200000);
    free(at);
    return calloc(2, (size_t)-1) ? "too much" : said;
}
int wkt_explain(void);
int wkt_explain(void) { return 22; }
C
gcc -fPIC -fno-builtin -Wno-alloc-size-larger-than -c "$dir/taken.c" -o "$dir/taken.o"
objcopy --redefine-sym wkt_version=is_version --redefine-sym wkt_explain=is_explained "$dir/library/libwkt.a"
ar r "$dir/library/libwkt.a" "$dir/taken.o"
made > "$dir/said"
is "build: memory by calloc" "taken and given back" "$("$bin/psql" -X -q -At -c "create function pg_temp.taken() returns text as '$dir/built/wkt.so', 'pg_wkt_version' language c" -c "select pg_temp.taken()" 2>&1)"
is "build: no memory to say why" "ERROR:  out of memory" "$("$bin/psql" -X -q -At -c "create function pg_temp.canonical(text, int) returns text as '$dir/built/wkt.so', 'pg_wkt_canonical' language c" -c "select pg_temp.canonical('POINT(1', 18)" 2>&1)"

# On a processor that the library isn't built for.
printf 'int wkt_supported(void);\nint wkt_supported(void) { return 0; }\n' > "$dir/unsupported.c"
gcc -fPIC -c "$dir/unsupported.c" -o "$dir/unsupported.o"
objcopy --redefine-sym wkt_supported=is_supported "$dir/library/libwkt.a"
ar r "$dir/library/libwkt.a" "$dir/unsupported.o"
made > "$dir/said"
is "build: an unsupported processor" "ERROR:  wkt: the processor is not supported
DETAIL:  The library is built for x86-64 processors with SSE4.2 and POPCNT.
the session goes on" "$("$bin/psql" -X -q -At -c "load '$dir/built/wkt.so'" -c "select 'the session goes on'" 2>&1)"
echo "build: as expected"
