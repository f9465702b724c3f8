#!/usr/bin/env bash
# fuzz.sh MINUTES: compares the library, as `rt try` compiles it, with a plain reader, guided by coverage, on one core.
# fuzz.sh 0: the seeds and the corpus once. fuzz.sh keep: what was found and adds to the seeds goes to corpus.txt.
#
# It takes some two minutes of building first (FRESH=1: again). WORK is where all is built and the corpus grows.
# Status 0: no difference. 1: one was found; its input is in WORK/found, and the log has both answers. 2: it failed.
set -euo pipefail
here=$(cd "$(dirname "$0")" && pwd)
root=$(cd "$here/../.." && pwd)
minutes=${1:?fuzz.sh MINUTES, or keep}
WORK=${WORK:-${TMPDIR:-/tmp}/wkt-fuzz}
kit=$(dirname "$(dirname "$(readlink -f "$(command -v rt)")")")
clang=$(command -v clang-14 || command -v clang)
mkdir -p "$WORK"/{corpus,found,seeds}
WORK=$(cd "$WORK" && pwd)
ulimit -c 0

build() {
    # The project with the fuzzing program among its crates, and the LLVM module that rt try makes of it.
    rm -rf "$WORK/wkt" "$WORK/module.bc"
    git clone -q "$root" "$WORK/wkt"
    mkdir -p "$WORK/wkt/crates/wkt_fuzz/src"
    cp "$here/program.txt" "$WORK/wkt/crates/wkt_fuzz/src/main.rt"
    echo 'wkt_fuzz: wkt wkt_bytes wkt_lines wkt_calls wkt_c wkt_test_support serde_json' >> "$WORK/wkt/crates.txt"
    # There the functions for C are called like any other.
    sed -i 's/^wkt_c staticlib:/wkt_c:/' "$WORK/wkt/crates.txt"
    sed -i -E 's/^mod (exports[a-z_]*);/pub mod \1;/' "$WORK/wkt/crates/wkt_c/src/lib.rt"
    cd "$WORK/wkt/crates/wkt_fuzz"
    nice -n 10 python3 "$here/module.py" "$WORK/module.bc" < /dev/null > "$WORK/try.log" 2>&1 || true
    cd "$WORK"
    [ -s "$WORK/module.bc" ] || { cat "$WORK/try.log"; echo "fuzz.sh: rt try left no module" >&2; exit 2; }
    "$kit/toolchain/bin/clang" -x ir "$WORK/module.bc" -S -emit-llvm -Xclang -disable-llvm-passes -o "$WORK/whole.ll"
    # The functions get the names by which capi/pointers.c calls them, and the program's main gives way to libFuzzer's.
    sed -E -e 's/@"wkt_fuzz::(wkt_[a-z_]+)"/@\1/g' \
        -e 's/@"wkt_c::exports(_[a-z]+)?::(wkt_[a-z_]+)"/@proved_\2/g' \
        -e 's/^define internal (noundef )?i32 @((proved_)?wkt_[a-z_]+)\(/define i32 @\2(/' \
        -e 's/^define i32 @main\(\)/define i32 @rattle_main()/' "$WORK/whole.ll" > "$WORK/wkt_fuzz.ll"
    # The flags of rt try, with libFuzzer's counters in the place of its address sanitizer; -O2 takes a minute more.
    flags="--target=x86_64-unknown-linux-gnu -mllvm -no-trap-after-noreturn -ffunction-sections -fdata-sections
        -mllvm -trap-unreachable -mllvm -no-x86-call-frame-opt -mllvm -disable-machine-licm
        -mllvm -disable-postra-machine-licm -mllvm -sink-common-insts=false --no-default-config -c -x ir -fPIE"
    nice -n 10 "$kit/toolchain/bin/clang" $flags "$WORK/wkt_fuzz.ll" -O1 \
        -fsanitize-coverage=inline-8bit-counters,pc-table -o "$WORK/wkt_fuzz.o"
    rustc --edition 2021 -O -Cpanic=abort -Coverflow-checks=on --crate-type staticlib --crate-name harness \
        "$here/harness.rs" -o "$WORK/libharness.a"
    "$clang" -O2 -c "$here/heap.c" -o "$WORK/heap.o"
    "$clang" -O2 -ffunction-sections -Dmalloc=heap_malloc -Dfree=heap_free -c "$root/capi/pointers.c" -o "$WORK/pointers.o"
    "$clang" -o "$WORK/fuzz" -fsanitize=fuzzer "$WORK/wkt_fuzz.o" "$WORK/libharness.a" "$WORK/heap.o" "$WORK/pointers.o" \
        "$kit"/c/libos_c.a "$kit"/c/liblibc_c.a -fuse-ld=lld -Wl,--gc-sections -Wl,--wrap=rattle_alloc \
        -Wl,--wrap=rattle_realloc -Wl,--wrap=rattle_dealloc -lpthread -ldl -lm
}

# What adds a counter to those of the tables, and of the short inputs also what adds a number of times.
keep() {
    rm -rf "$WORK"/{less,tables,short}
    mkdir -p "$WORK/short"
    python3 "$here/seeds.py" "$WORK/tables" $tables
    cp -r "$WORK/tables" "$WORK/less"
    find "$WORK/seeds" "$WORK/corpus" -type f -size -121c -exec cp -t "$WORK/short" {} +
    nice -n 10 "$WORK/fuzz" -merge=1 -use_counters=0 -max_len=600 "$WORK/less" "$WORK/seeds" "$WORK/corpus" \
        > "$WORK/log" 2>&1
    nice -n 10 "$WORK/fuzz" -merge=1 -max_len=600 "$WORK/less" "$WORK/short" >> "$WORK/log" 2>&1
    (cd "$WORK/tables" && ls) | (cd "$WORK/less" && xargs rm -f)
    python3 "$here/seeds.py" --keep "$WORK/less" > "$here/corpus.txt"
    wc "$here/corpus.txt"
}

[ -x "$WORK/fuzz" ] && [ -z "${FRESH:-}" ] || build
tables="$root/crates/wkt_tables/stdin $root/crates/wktline/stdin"
python3 "$here/seeds.py" "$WORK/seeds" $tables "$here/corpus.txt"
if [ "$minutes" = keep ]; then
    keep
    exit 0
fi
status=0
# With no minutes it runs the fixed inputs, the corpus and the seeds once.
how=(-runs=0) fixed=1
[ "$minutes" = 0 ] || how=(-max_total_time=$((minutes * 60))) fixed=
WKT_FUZZ_FIXED=$fixed nice -n 10 "$WORK/fuzz" "${how[@]}" -max_len="${MAX_LEN:-600}" -entropic=0 -dict="$here/wkt.dict" -timeout="${SLOW:-30}" \
    -rss_limit_mb=3000 -print_final_stats=1 -artifact_prefix="$WORK/found/" "$WORK/corpus" "$WORK/seeds" \
    > "$WORK/log" 2>&1 || status=1
[ $status = 0 ] || [ -n "$(ls "$WORK/found")" ] || grep -qa DIFFERENCE "$WORK/log" || status=2
grep -a -A4 DIFFERENCE "$WORK/log" || true
grep -aE "fixed inputs|Loaded .* modules|^Done|stat::|DONE|SUMMARY" "$WORK/log" || tail -n 20 "$WORK/log"
echo "corpus: $(find "$WORK/corpus" -type f | wc -l) inputs; log: $WORK/log"
exit $status
