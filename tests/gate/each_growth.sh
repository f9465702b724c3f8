#!/usr/bin/env bash
# Refuses each allocation of the four built programs in turn, and of the built tests of the macros, of the callers
# over rows, and of values made of events, until a run meets none.
#
# wktline, wktstream and the command wkt answer lines of every kind: each refusal has to end them with their words and status, after the
# whole answers to some first lines. wkt_tables reads each text by three calls, copies the geometry, puts the copy together again from
# its parts and displays it, converts it to a two-dimensional one and back, reads that from the text, from bytes and
# from JSON, and writes it in three ways: each refusal has to end it as out of memory, with no row reported as wrong, or to
# change nothing. Then the same of ten thousand nested collections, at allocations all over the run. A test has to end as
# out of memory, which no wrong value does, or to pass.
#
# The gate runs it on what it has built; alone, build all of them first (rt run in crates/wktline, crates/wktstream,
# crates/wkt_command and crates/wkt_tables, rt test in crates/wkt, crates/wkt_read_tests and crates/wkt_examples).
set -u
cd "$(dirname "$0")/../.." || exit 1
dir=$(mktemp -d)
trap 'rm -rf "$dir"' EXIT

# The toolchain's own compiler makes it, with no header of the C library.
cat > "$dir/refuse.c" <<'C'
extern void *__libc_malloc(unsigned long);
extern void *__libc_realloc(void *, unsigned long);
extern char *getenv(const char *);
extern long atol(const char *);
extern int open(const char *, int, ...);
extern int close(int);
static long calls;
static int refused(void) {
    const char *which = getenv("REFUSE");
    if (!which || ++calls != atol(which))
        return 0;
    close(open(getenv("REFUSED"), 0101 /* made, and written to */, 0600));
    return 1;
}
void *malloc(unsigned long size) { return refused() ? 0 : __libc_malloc(size); }
void *realloc(void *block, unsigned long size) { return refused() ? 0 : __libc_realloc(block, size); }
C
"$(dirname "$(rt doc)")/toolchain/bin/clang" -shared -fPIC -fno-builtin -nostdlib -o "$dir/refuse.so" "$dir/refuse.c" || exit 2

fail() { echo "$1, allocation $2: $3"; exit 1; }

# run N PROGRAM ARGUMENT.. < INPUT: leaves out, err, the status, and the file refused if an allocation was refused
run() {
    local n=$1
    shift
    rm -f "$dir/refused"
    REFUSE=$n REFUSED="$dir/refused" LD_PRELOAD="$dir/refuse.so" "$@" > "$dir/out" 2> "$dir/err"
}

# each PROGRAM INPUT USUAL STATUS STEP ARGUMENT..: every allocation in turn, or one of so many. USUAL is the status with
# ample memory, STATUS that of out of memory.
each() {
    local program=$1 input=$2 usual=$3 want=$4 step=$5 n=1 tried=0 ended=0 status
    shift 5
    "crates/$program/out/$program" "$@" < "$input" > "$dir/whole" 2> "$dir/err"
    status=$?
    [ "$status" = "$usual" ] || { cat "$dir/whole" "$dir/err"; fail "$program" 0 "status $status with ample memory"; }
    while true; do
        run "$n" "crates/$program/out/$program" "$@" < "$input"
        status=$?
        if [ "$status" = "$usual" ]; then
            cmp -s "$dir/out" "$dir/whole" || fail "$program" "$n" "another output"
            [ -e "$dir/refused" ] || break
        else
            [ "$status" = "$want" ] || fail "$program" "$n" "status $status"
            grep -qx ".*: out of memory" "$dir/err" || fail "$program" "$n" "other words"
            head -n "$(wc -l < "$dir/out")" "$dir/whole" | cmp -s - "$dir/out" || fail "$program" "$n" "another output"
            ended=$((ended + 1))
        fi
        n=$((n + step)) tried=$((tried + 1))
    done
    [ "$tried" -gt 0 ] || fail "$program" 1 "nothing was refused"
    echo "$program: $tried allocations refused, each in a run of its own; $ended ended it, the others changed nothing"
}

# each_test CRATE [MODULE]: every allocation in turn of each of its tests, or of those of a module
each_test() {
    local tests=crates/$1/out/$1_tests name n tried=0 ended=0 status
    for name in $("$tests" --list | sed -n 's/: test$//p' | grep "${2:-}"); do
        n=1
        while true; do
            run "$n" "$tests" "$name"
            status=$?
            if [ "$status" != 0 ]; then
                grep -qx "[Ee]rror: AllocError" "$dir/err" || fail "$1" "$n" "$name fails otherwise"
                ended=$((ended + 1))
            fi
            [ -e "$dir/refused" ] || break
            n=$((n + 1)) tried=$((tried + 1))
        done
        [ "$status" = 0 ] || fail "$1" "$n" "$name fails with ample memory"
    done
    [ "$tried" -gt 0 ] || fail "$1" 1 "nothing was refused"
    echo "$1: $tried allocations refused in its tests, each in a run of its own; $ended ended it, the others changed nothing"
}

cut -f 1 tests/data/growth.tsv > "$dir/lines"
{ sed 's/^/SRID=1;/; s/1 2/1e3 2/' "$dir/lines"; printf '%s\n' 'POINT(nan nan)' 'POINT(1e3 nan)'; } > "$dir/dialects"
each wktline "$dir/lines" 0 1 1
each wktstream "$dir/lines" 0 1 1
each wkt_tables tests/data/growth.tsv 0 2 1
each wkt_tables /dev/null 0 2 1 tests/data/growth.jsonl
each wkt_tables "$dir/lines" 0 2 1 count decimal canonical to_string display wkt_string
# The command answers some lines with words for people, and its status says that some were refused.
each wkt_command "$dir/lines" 1 2 1 canon --refused refused
each wkt_command "$dir/lines" 1 2 1 kind --refused refused -q
cat "$dir/lines" "$dir/lines" > "$dir/twice"
each wkt_command "$dir/twice" 1 2 1 dups -p 6 -
each wkt_command "$dir/lines" 1 2 1 check --max 0
each wkt_command "$dir/dialects" 1 2 1 canon --dialect ewkt,exponents,nan --refused refused
each wkt_command /dev/null 0 2 1 same 'LINESTRING(1 2,3 4)' 'linestring ( 1.0 2, 3 +4)'
each_test wkt
each_test wkt_read_tests values::
each_test wkt_examples rows

# nested N: a point in so many collections
nested() { printf 'GEOMETRYCOLLECTION(%.0s' $(seq "$1"); printf 'POINT(1 2)'; printf ')%.0s' $(seq "$1"); }

nested 10000 > "$dir/deep"
each wktline "$dir/deep" 0 1 199
each wktstream "$dir/deep" 0 1 199
printf '%s\t%s\n' "$(nested 10000)" "$(nested 10000)" > "$dir/deep.tsv"
each wkt_tables "$dir/deep.tsv" 0 2 997
