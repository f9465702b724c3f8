#!/usr/bin/env bash
# Runs every stored text and the tests, and proves nothing: the rows of the table and of crates/wkt_tables/data, the
# tests of each crate that has some, and each program over its stored input; wktline and wktstream over the keys of
# tests/data/keys.tsv too. quick.sh [CRATE..]: all of these crates, or those that are named.
#
# It builds each crate with checks (rt try), two at a time (JOBS=N: N at a time), and says when it begins with a crate and
# what came of it. Not run here, and said so: the modules deep and short_texts of wkt_tests, whose texts are too deep and too
# many for a build with checks.
set -u
cd "$(dirname "$0")/.." || exit 1
command -v rt > /dev/null || { echo "quick.sh: the prover, rt, isn't here; ./check runs the tests that need none"; exit 3; }
jobs=${JOBS:-2}
dir=$(mktemp -d)
trap 'rm -rf "$dir"' EXIT

# at WORDS: what happens, behind the seconds since the start
at() { printf '%4d s  %s\n' "$SECONDS" "$*"; }
# counted CRATE PASSED FAILED WORDS: what came of a crate
counted() {
    at "$1: $4$2 passed, $3 failed, in $((SECONDS - start)) s"
    echo "$2 $3" > "$dir/$1.count"
}
# ended FILE: whether rt try came to an end, and not to a crash or a limit
ended() { tail -n 1 "$1" | grep -q '^run=ended '; }

# shortened: a copy of the crates in $dir/short, without the modules of wkt_tests that take too long here: rt try leaves no
# test out of several modules
shortened() {
    local src=$dir/short/crates/wkt_tests/src
    mkdir "$dir/short"
    cp crates.txt "$dir/short"
    tar -c --exclude=out crates | tar -x -C "$dir/short"
    rm -r "$src"/{deep.rt,short_texts.rt,short_texts}
    sed -i -z -E 's/#\[cfg\(test\)\]\nmod (deep|short_texts);\n//g' "$src/lib.rt"
}

# tests CRATE: its tests
tests() {
    local said=$dir/$1.said passed failed start=$SECONDS top=.
    [ "$1" != wkt_tests ] || { shortened; top=$dir/short; }
    (cd "$top/crates/$1" && rt try --test) > "$said" 2>&1 < /dev/null
    passed=$(sed -n 's/^test result: .* \([0-9]*\) passed;.*/\1/p' "$said")
    failed=$(sed -n 's/^test result: .*; \([0-9]*\) failed;.*/\1/p' "$said")
    [ -n "$passed" ] || { tail -n 20 "$said"; passed=0 failed=1; }
    grep -A 4 '^test .*FAILED$' "$said"
    counted "$1" "$passed" "$failed" "tests: "
}

# rows: the table and the files of rows, which print what is wrong themselves
rows() {
    local said=$dir/rows.said data=() args=() passed failed start=$SECONDS
    cd crates/wkt_tables || return
    for file in data/*; do data+=(--data "${file#data/}=$file"); done
    mapfile -t args < args
    rt try --steps 0 "${data[@]}" -- "${args[@]}" < stdin > "$said" 2> "$said.err"
    passed=$(sed -n 's/^\(.*: \)\?\([0-9]*\) rows, \([0-9]*\) wrong$/\2 \3/p' "$said" | awk '{ n += $1 - $2 } END { print n + 0 }')
    failed=$(sed -n 's/^\(.*: \)\?\([0-9]*\) rows, \([0-9]*\) wrong$/\3/p' "$said" | awk '{ n += $1 } END { print n + 0 }')
    cat "$said"
    # Each file has its line, and the program came to its end.
    [ "$(grep -c ' rows, ' "$said")" = "$((${#args[@]} + 1))" ] && ended "$said.err" || { tail -n 20 "$said.err"; failed=$((failed + 1)); }
    counted wkt_tables "$passed" "$failed" "rows: "
}

# keys: what both programs answer, as cases for rt try
keys() {
    mkdir -p "$dir/cases"
    grep -v '^#' tests/data/keys.tsv | cut -f 1 > "$dir/cases/keys"
    grep -v '^#' tests/data/keys.tsv | cut -f 5 > "$dir/cases/keys.stdout"
    cp crates/wktline/stdin "$dir/cases/stored"
    cp crates/wktline/stdout "$dir/cases/stored.stdout"
}

# lines CRATE: wktline or wktstream over its stored input and over the keys; each line is counted
lines() {
    local said=$dir/$1.said passed=0 failed=0 start=$SECONDS
    cmp crates/wktline/stdin "crates/$1/stdin" && cmp crates/wktline/stdout "crates/$1/stdout" || failed=1
    (cd "crates/$1" && rt try --steps 0 --cases "$dir/cases") > "$said" 2>&1 < /dev/null
    for case in keys stored; do
        count=$(wc -l < "$dir/cases/$case.stdout")
        if grep -q "^case=$case run=ended status=0 .*output=expected" "$said"; then
            passed=$((passed + count))
        else
            failed=$((failed + count))
        fi
    done
    [ "$failed" = 0 ] || tail -n 20 "$said"
    counted "$1" "$passed" "$failed" "lines: "
}

# program CRATE: another program, over its stored input
program() {
    local said=$dir/$1.said data=() args=() want=0 start=$SECONDS
    cd "crates/$1" || return
    for file in data/*; do [ ! -f "$file" ] || data+=(--data "${file#data/}=$file"); done
    [ ! -f args ] || mapfile -t args < args
    [ ! -f status ] || want=$(cat status)
    [ -f stdin ] || : > "$dir/none"
    rt try --steps 0 "${data[@]}" -- "${args[@]}" < "$([ -f stdin ] && echo stdin || echo "$dir/none")" > "$said" 2> "$said.err"
    if [ $? = "$want" ] && ended "$said.err" && cmp "$said" stdout; then
        counted "$1" 1 0 "program: "
    else
        tail -n 20 "$said.err"
        counted "$1" 0 1 "program: "
    fi
}

# The longest first.
work=("rows wkt_tables")
for crate in $(grep -lr '^#\[test\]' crates/*/src | cut -d / -f 2 | sort -u); do
    work+=("tests $crate")
done
for main in crates/*/src/main.rt; do
    crate=$(basename "$(dirname "$(dirname "$main")")")
    case $crate in
        wkt_tables) ;;
        wktline | wktstream) work+=("lines $crate") ;;
        *) [ ! -f "crates/$crate/stdout" ] || work+=("program $crate") ;;
    esac
done

# Of those the crates that are named, or all.
steps=()
for one in "${work[@]}"; do
    case " $* " in "  " | *" ${one#* } "*) steps+=("$one") ;; esac
done

keys
echo "${#steps[@]} crates, $jobs at a time; to build one takes up to two minutes"
running=0 begun=()
for one in "${steps[@]}"; do
    read -r kind crate <<< "$one"
    if [ "$running" -ge "$jobs" ]; then wait -n; running=$((running - 1)); fi
    begun+=("$crate")
    at "$crate: $kind: begun, ${#begun[@]} of ${#steps[@]}"
    # What it says comes in one piece.
    { "$kind" "$crate" > "$dir/$crate.out" 2>&1; cat "$dir/$crate.out"; } &
    running=$((running + 1))
done
wait

passed=0 failed=0
for crate in "${begun[@]}"; do
    read -r p f < "$dir/$crate.count" || { echo "$crate: came to no count"; p=0 f=1; }
    passed=$((passed + p)) failed=$((failed + f))
done
[ $# != 0 ] || echo "not run here: deep and short_texts of wkt_tests ($(cat crates/wkt_tests/src/{deep,short_texts}.rt | grep -c '^#\[test\]') tests, which the gate runs)"
[ "${#begun[@]}" != 0 ] || failed=1
echo "$SECONDS s"
echo "$passed passed, $failed failed"
[ "$failed" = 0 ]
