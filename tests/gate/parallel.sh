#!/usr/bin/env bash
# wkt-parallel writes what one run of wkt writes, in order, and loses no failure: parallel.sh FOLDER, in which both are.
set -u
unset CDPATH
out=$(cd "$1" && pwd) || exit 1
dir=$(mktemp -d)
trap 'rm -rf "$dir"' EXIT
export TMPDIR="$dir/a folder"
mkdir "$TMPDIR" "$dir/fake"
failed=0
wrong() { echo "wrong: wkt-parallel: $*"; failed=1; }
# ended STATUS WORDS WORD..: so it ends, with these words on standard error, and leaves no file
ended() {
    local status
    "${@:3}" > "$dir/said" 2> "$dir/words"
    status=$?
    [ "$status" = "$1" ] || wrong "${*:3}: status $status, not $1"
    [ "$(grep -v 'lines\? refused$' "$dir/words")" = "$2" ] || { cat "$dir/words"; wrong "${*:3}: other words"; }
    [ -z "$(ls "$TMPDIR")" ] || wrong "${*:3}: it leaves files"
}
begins() { cmp -s "$dir/said" <(head -c "$(stat -c %s "$dir/said")" "$dir/want") || wrong "$1: no beginning of the output"; }

seq 20000 | sed 's/.*/point ( &.50 -& )/; 777s/.*/POINT(1)/; 15000s/.*/POINT(2)/' > "$dir/two words.wkt"
sed '777d; 15000d' "$dir/two words.wkt" > "$dir/-q"
for name in 'two words.wkt' -q; do sed -n 's/^point ( \(.*\)0 \(.*\) )$/POINT(\1 \2)/p' "$dir/$name"; done > "$dir/want"
cd "$dir" || exit 1
for count in 1 2 7; do
    ended 1 "$(printf '%s\n' 'two words.wkt:777:8: a second number was expected' '    POINT(1)' '           ^' \
        'two words.wkt:15000:8: a second number was expected' '    POINT(2)' '           ^')" "$out/wkt-parallel" -j $count canon -- 'two words.wkt' -q
    cmp "$dir/said" "$dir/want" || wrong "-j $count: other texts"
done
ended 0 '' "$out/wkt-parallel" -j3 kind -p 2 -- -q
[ "$(sort "$dir/said" | uniq -c | tr -s ' ')" = ' 19998 Point XY' ] || wrong "kind: other words"
ended 1 '' "$out/wkt-parallel" canon -q --refused '' -- 'two words.wkt'
[ "$(wc -l < "$dir/said")" = 20000 ] || wrong "an empty word is lost"

# What fails ends it: a file that isn't there, an output that is full, a temporary file that is, a run that is killed.
ended 2 'wkt: nowhere: no such file or directory' "$out/wkt-parallel" -j 4 canon -q -- -q nowhere 'two words.wkt'
cmp "$dir/said" <(tail -n 19998 "$dir/want") || wrong "a file that isn't there: other texts"
ended 2 'wkt: standard output: No space left on device (os error 28)' sh -c "'$out/wkt-parallel' -j 4 canon -q -- -q > /dev/full"
for file in wkt wkt-parallel; do cp "$out/$file" "$dir/fake"; done
mv "$dir/fake/wkt" "$dir/fake/proved"
# fake WORDS: a `wkt` whose third part of four does this
fake() { printf '#!/bin/sh\ncase "$*" in *" 3/4 "*) %s ;; esac\nexec "%s" "$@"\n' "$1" "$dir/fake/proved" > "$dir/fake/wkt" && chmod 755 "$dir/fake/wkt"; }
fake 'exec > /dev/full'
ended 2 'wkt: standard output: No space left on device (os error 28)' "$dir/fake/wkt-parallel" -j 4 canon -q -- 'two words.wkt'
begins "a full disk"
# shellcheck disable=SC2016 # of the fake
fake 'kill -9 $$'
ended 2 'wkt-parallel: part 3/4 of two words.wkt ended with status 137' "$dir/fake/wkt-parallel" -j 4 canon -q -- 'two words.wkt'
begins "a killed part"
[ -s "$dir/said" ] || wrong "a killed part: nothing of those before it"
# It ends what it began.
# shellcheck disable=SC2016 # of the fake
fake 'echo $$ > pid; exec sleep 1000'
"$dir/fake/wkt-parallel" -j 4 canon -q -- 'two words.wkt' > "$dir/said" &
while [ ! -s "$dir/pid" ]; do sleep 0.1; done
kill $! && wait $!
[ $? = 143 ] && ! kill -0 "$(cat "$dir/pid")" 2> /dev/null && [ -z "$(ls "$TMPDIR")" ] || wrong "SIGTERM: its runs or files are left"
"$out/wkt-parallel" -j 4 canon -q -- 'two words.wkt' 2> "$dir/words" | head -n 1 > "$dir/said"
[ "${PIPESTATUS[0]} $(cat "$dir/said" "$dir/words")" = "2 POINT(1.5 -1)" ] || wrong "a closed pipe"

usage='wkt-parallel: usage: wkt-parallel [-j N] canon|kind [OPTION..] -- FILE..'
for words in '' '-j' '-j 0 canon -- a' '-jx canon -- a' 'check -- a' 'canon a' 'canon --'; do
    # shellcheck disable=SC2086 # words
    ended 2 "$usage" "$out/wkt-parallel" $words
done
[ $failed = 0 ] && echo "wkt-parallel: the texts of one run, in order; what fails is said"
exit $failed
