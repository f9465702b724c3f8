#!/usr/bin/env bash
# Runs a command on each case of the transcripts of tests/data/command, and compares what it writes and its status byte
# for byte.
#
# command.sh [WORD..]: the words that call it; crates/wkt_command/out/wkt_command without any. A case of a transcript:
#   # NAME          its name
#   = FILE          a file that lies where it runs
#   | TEXT          a line of that file
#   < TEXT          a line that it is fed; `< 100 times TEXT`: so many such lines, so also behind >
#   $ wkt WORD..    how it is called, as a shell reads it
#   > TEXT          a line that it writes on standard output; `> ...`: anything
#   ! TEXT          the same on standard error
#   ? STATUS        its status, if not 0
# In a TEXT and a FILE, \xHH is a byte and \\ a backslash; \c at a TEXT's end says that no end of a line follows.
# Then, with REST=no without them: standard input and output that are closed, or full, a line of 100 MB, progress, and, but
# for REST=streams, completions and texts in dialects, which take 230 runs. WKT_BUILD is the version of a program that was built
# of another commit than this is.
set -u
cd "$(dirname "$0")/../.." || exit 1
cases=$PWD/tests/data/command version=${WKT_BUILD:-$(dist/version.sh)}
if [ $# = 0 ]; then
    set -- "$PWD/crates/wkt_command/out/wkt_command"
fi
dir=$(mktemp -d)
trap 'rm -rf "$dir"' EXIT
failed=0
fail() { echo "FAILED $*"; failed=$((failed + 1)); }

# line FILE TEXT: adds a line of a transcript to a file
line() { printf '%b\n' "$2" >> "$dir/$1"; }
# like NAME FILE: what was written is what the case says
like() {
    grep -qx '\.\.\.' "$dir/want/$2" || cmp -s "$dir/want/$2" "$dir/$2" || {
        fail "$1: $2"
        diff "$dir/want/$2" "$dir/$2" | head -n 20
    }
}
# begin NAME: of a new case
begin() {
    rm -rf "$dir/data" "$dir/want" && mkdir "$dir/data" "$dir/want"
    touch "$dir/want/stdin" "$dir/want/stdout" "$dir/want/stderr"
    name=$1 words=() wanted=0
}
# run WORD..: the case that was read
run() {
    local status
    [ -n "$name" ] || return 0
    count=$((count + 1))
    (cd "$dir/data" && "$@" "${words[@]}" < "$dir/want/stdin" > "$dir/stdout" 2> "$dir/stderr")
    status=$?
    [ "$wanted" = "$status" ] || fail "$name: status $status, not $wanted"
    # What is linked between releases says the commit, and the proved program the number alone.
    [ "$(cat "$dir/stdout")" != "wkt $version" ] || echo "wkt ${version%%-*}" > "$dir/stdout"
    like "$name" stdout
    like "$name" stderr
}
# many FILE COUNT TEXT: so many lines of a file
many() { yes "$(printf '%b' "$3")" | head -n "$2" >> "$dir/want/$1"; }

count=0
for transcript in "$cases"/*.txt; do
    name=
    while IFS= read -r text; do
        rest=${text:2}
        case $text in
            '# '*) run "$@" && begin "$rest" ;;
            '= '*) file=data/$(printf '%b' "$rest") && mkdir -p "$(dirname "$dir/$file")" && : > "$dir/$file" ;;
            '|'*) line "$file" "$rest" ;;
            '< '*' times '*) many stdin "${rest%% *}" "${rest#* times }" ;;
            '> '*' times '*) many stdout "${rest%% *}" "${rest#* times }" ;;
            '<'*) line want/stdin "$rest" ;;
            '$ wkt'*) eval "words=(${text#"\$ wkt"})" ;;
            '>'*) line want/stdout "$rest" ;;
            '!'*) line want/stderr "$rest" ;;
            '?'*) wanted=$rest ;;
            '') ;;
            *) fail "$transcript: $text" ;;
        esac
    done < "$transcript"
    run "$@"
done

rest() {
    # A pipe that nobody reads ends the run quietly, a full device with words.
    yes 'POINT(1 2)' | head -n 200000 > "$dir/many"
    "$@" canon "$dir/many" 2> "$dir/stderr" | head -n 1 > "$dir/stdout"
    [ "${PIPESTATUS[0]} $(cat "$dir/stdout")" = "2 POINT(1 2)" ] || fail "closed pipe: status or output"
    [ ! -s "$dir/stderr" ] || fail "closed pipe: words on standard error"
    "$@" canon "$dir/many" > /dev/full 2> "$dir/stderr"
    [ $? = 2 ] && grep -q '^wkt: standard output: ' "$dir/stderr" || fail "full device"

    # Standard input that is closed: the system's words.
    "$@" canon <&- > "$dir/stdout" 2> "$dir/stderr"
    [ "$? $(cat "$dir/stderr")" = "2 wkt: standard input: Bad file descriptor (os error 9)" ] || fail "closed standard input"

    # A line of 100 MB, read and refused.
    { printf 'LINESTRING(0 0'; yes ',12.5 -7' | head -n 12500000 | tr -d '\n'; printf ')\n'; } > "$dir/long"
    [ "$("$@" check "$dir/long")" = "0 of 1 line refused" ] || fail "a line of 100 MB"
    { printf 'x'; cat "$dir/long"; } > "$dir/longer"
    "$@" check "$dir/longer" > "$dir/stdout"
    [ $? = 1 ] && [ "$(wc -c < "$dir/stdout")" -lt 400 ] || fail "a line of 100 MB that is refused"
    rm -f "$dir/long" "$dir/longer"

    # JSON gives back a name of any characters, and its lines have no other controls.
    local odd file
    odd=$(python3 -c 'print("".join(map(chr, [*range(1, 47), *range(48, 128), 0x9b, 0xa0, 0xe9, 0x202e, 0xe0001])), end="")')
    file=$dir/$odd
    echo x > "$file"
    "$@" check --format json "$file" > "$dir/stdout" 2> "$dir/stderr"
    python3 - "$file" "$dir/stdout" << 'END' || fail "a name in JSON"
import json, sys
written = open(sys.argv[2], encoding="utf-8").read()
assert json.loads(written)["file"] == sys.argv[1] and written[:-1].isprintable() and written[-1] == "\n"
END
    rm -f "$file"

    # Progress is written over in place, and taken away at the end; without a terminal it comes only where it is asked for.
    { cat "$dir/many"; sleep 0.5; cat "$dir/many"; } | "$@" check --progress > "$dir/stdout" 2> "$dir/stderr"
    grep -q $'\rwkt: .* MB  .* lines  0 refused' "$dir/stderr" || fail "progress"
    [ "$(tail -c 4 "$dir/stderr")" = $'\r\e[K' ] || fail "progress isn't taken away"
    { cat "$dir/many"; sleep 0.5; cat "$dir/many"; } | "$@" check > "$dir/stdout" 2> "$dir/stderr"
    [ ! -s "$dir/stderr" ] || fail "progress where no terminal is"

    [ "${REST:-yes}" != streams ] || return
    tests/gate/completions.sh "$@" || fail "completions"
    tests/gate/command_dialects.py "$@" || fail "texts in dialects"
}
[ "${REST:-yes}" = no ] || rest "$@"

[ "$failed" = 0 ] && echo "command: $count cases, all as written" || { echo "command: $failed differ"; exit 1; }
