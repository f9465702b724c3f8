#!/usr/bin/env bash
# Shows how both programs behave as filters: what the README says of them, one line a case.
#
# It needs both programs (rt run in crates/wktline and in crates/wktstream), and a C compiler for the cases that count
# calls or fail one.
set -u
cd "$(dirname "$0")/../.." || exit 1
dir=$(mktemp -d)
trap 'rm -rf "$dir"' EXIT
wrong=0

# says NAME WANT: compares what the last case left in the files out, err and status
says() {
    local got
    got="$(cat "$dir/status") | $(head -c 200 "$dir/out") | $(cat "$dir/err")"
    if [ "$got" = "$2" ]; then
        echo "ok: $name: $1"
    else
        echo "wrong: $name: $1: wanted [$2], got [$got]"
        wrong=1
    fi
}

# same NAME FILE: the case left this file's bytes in the file whole, and no others
same() {
    cmp -s "$dir/whole" "$2" && : > "$dir/out" || echo "another output" > "$dir/out"
    says "$1" "0 |  | "
}

# peak NAME KB INPUT PROGRAM: a run over it leaves the input's own bytes, in less memory than so many KB
peak() {
    python3 - "$dir" "$3" "$4" <<'P'
import resource, subprocess, sys
folder, given, program = sys.argv[1:]
with open(given, "rb") as source, open(folder + "/whole", "wb") as out, open(folder + "/err", "wb") as err:
    status = subprocess.call(["bash", "-c", 'ulimit -s 256; exec "$0"', program], stdin=source, stdout=out, stderr=err)
with open(folder + "/status", "w") as file:
    print(status, file=file)
with open(folder + "/peak", "w") as file:
    print(resource.getrusage(resource.RUSAGE_CHILDREN).ru_maxrss, file=file)
P
    if [ "$(cat "$dir/peak")" -lt "$2" ]; then
        same "$1" "$3"
    else
        echo "$(cat "$dir/peak") KB" > "$dir/out"
        says "$1" "0 |  | "
    fi
}

# run COMMAND..: runs it with its output, its error and its status in files
run() {
    "$@" > "$dir/out" 2> "$dir/err"
    echo $? > "$dir/status"
}

cat > "$dir/calls.c" <<'C'
#include <dlfcn.h>
#include <errno.h>
#include <stdio.h>
#include <stdlib.h>
#include <sys/syscall.h>
#include <unistd.h>
static long writes, reads;
/* Counts the calls on standard output, and interrupts the second read, or the first write, or cuts each write short. */
ssize_t write(int file, const void *bytes, size_t length) {
    if (file == 1) {
        writes++;
        if (getenv("STOP")) { errno = EINTR; return -1; }
        if (getenv("SHORT") && length > 3) length = 3;
    }
    return syscall(SYS_write, file, bytes, length);
}
ssize_t read(int file, void *bytes, size_t length) {
    if (file == 0 && getenv("INTERRUPT") && ++reads == 2) { errno = EINTR; return -1; }
    return syscall(SYS_read, file, bytes, length);
}
__attribute__((destructor)) static void report(void) {
    if (getenv("COUNT")) dprintf(2, "%ld writes\n", writes);
}
C
cc -shared -fPIC -o "$dir/calls.so" "$dir/calls.c" || exit 2

printf 'POINT(1 2)\n' > "$dir/one"
printf 'POINT(1 2)\nPOINT(3 4)\nx\n' > "$dir/three"
printf 'POINT(1 2)\nPOINT(3 4)\nrefused\n' > "$dir/three_answers"
printf '\xef\xbb\xbfPOINT(1 2)\nPOINT(1 2)\r\nPOINT(1\0 2)\n' > "$dir/marks"
# LINESTRING(1 1,..) of 100 coordinates is 411 bytes and a line feed
{ printf 'LINESTRING(1 1'; for _ in $(seq 99); do printf ',1 1'; done; printf ')\n'; } > "$dir/long"

python3 - "$dir" <<'P'
import sys
folder = sys.argv[1]
def put(name, text):
    with open(folder + '/' + name, 'w') as file:
        file.write(text)
def nested(depth):
    return 'GEOMETRYCOLLECTION(' * depth + 'POINT(1 2)' + ')' * depth + '\n'
put('wide', 'POINT(1 2)\nLINESTRING(' + ','.join(['0 0'] * 5_000_000) + ')\n')
put('deep', 'POINT(1 2)\n' + nested(1_000_000) + 'POINT(3 4)\n')
def refused(name, text):
    put(name, text + '\nPOINT(1 2)\n')
many = 1_000_000
opened = 'GEOMETRYCOLLECTION('
refused('open', opened * many)
refused('open_but_one', opened * many + 'POINT(1 2)' + ')' * (many - 1))
refused('points_before', (opened + 'POINT(1 2),') * many + 'POINT(1 2)' + ')' * (many - 1))
refused('points_behind', opened * many + 'POINT EMPTY' + '),POINT EMPTY' * (many - 1))
refused('side_by_side', opened + 'POINT EMPTY,' * many)
# line feeds as the last byte of a block of 128 KiB, the one before it and the first of the next
edges = []
for last in (131072, 262143, 393217):
    at = sum(len(line) for line in edges)
    edges.append('POINT(5 6)' + ' ' * (last - at - 11) + '\n')
    edges.append('POINT(7 8)\n')
put('edges', ''.join(edges))
put('edges_answers', 'POINT(5 6)\nPOINT(7 8)\n' * 3)
put('longest', 'POINT(1 2)\nPOINT(3 4)' + ' ' * 100_000_000 + '\n' + 'x' * 100_000_000 + '\nPOINT(5 6)')
put('longest_answers', 'POINT(1 2)\nPOINT(3 4)\nrefused\nPOINT(5 6)\n')
P

# cases NAME READ WRITES LONG: what both do; what was written when the second read failed, and how many writes three lines
# and one of 412 bytes take
cases() {
name=$1
program=$PWD/crates/$1/out/$1

run "$program" < "$dir/three"
says "each line is answered" "0 | POINT(1 2)
POINT(3 4)
refused | "

run "$program" --help whatever < "$dir/one"
says "arguments are ignored" "0 | POINT(1 2) | "

run "$program" < "$dir/marks"
says "a byte order mark belongs to the line; CR is white space; a NUL ends the text" "0 | refused
POINT(1 2)
refused | "

run "$program" < /dev/null
says "an empty input" "0 |  | "

printf 'POINT(1 2)\n\nPOINT(3 4)' > "$dir/unended"
run "$program" < "$dir/unended"
says "an empty line is refused, and a last line needs no line feed" "0 | POINT(1 2)
refused
POINT(3 4) | "

run "$program" < /
says "a folder as input" "1 |  | wkt: standard input: Is a directory (os error 21)"

run "$program" <&-
says "a closed input" "1 |  | wkt: standard input: Bad file descriptor (os error 9)"

"$program" < "$dir/one" > /dev/full 2> "$dir/err"
echo $? > "$dir/status"
: > "$dir/out"
says "a full device" "1 |  | wkt: standard output: No space left on device (os error 28)"

"$program" < "$dir/one" >&- 2> "$dir/err"
echo $? > "$dir/status"
says "a closed output" "1 |  | wkt: standard output: Bad file descriptor (os error 9)"

rm -f "$dir/pipe"
mkfifo "$dir/pipe"
(exec 3< "$dir/pipe"; exec 3<&-) &
# the reader is gone before the program writes
{ sleep 0.3; cat "$dir/one"; } | "$program" > "$dir/pipe" 2> "$dir/err"
echo "${PIPESTATUS[1]}" > "$dir/status"
wait
says "a closed pipe" "1 |  | wkt: standard output: Broken pipe (os error 32)"

run env INTERRUPT=1 LD_PRELOAD="$dir/calls.so" "$program" < "$dir/one"
says "an interrupted read isn't tried again" "1 | $2 | wkt: standard input: Interrupted system call (os error 4)"

run env STOP=1 COUNT=1 LD_PRELOAD="$dir/calls.so" "$program" < "$dir/three"
says "an interrupted write isn't tried again" "1 |  | wkt: standard output: Interrupted system call (os error 4)
1 writes"

env SHORT=1 LD_PRELOAD="$dir/calls.so" "$program" < "$dir/three" > "$dir/whole" 2> "$dir/err"
echo $? > "$dir/status"
same "writes that take three bytes each" "$dir/three_answers"

run env COUNT=1 LD_PRELOAD="$dir/calls.so" "$program" < "$dir/three"
says "how many writes three lines take" "0 | POINT(1 2)
POINT(3 4)
refused | $3 writes"

env COUNT=1 LD_PRELOAD="$dir/calls.so" "$program" < "$dir/long" > "$dir/whole" 2> "$dir/err"
echo $? > "$dir/status"
cmp -s "$dir/whole" "$dir/long" && : > "$dir/out" || echo "another output" > "$dir/out"
says "how many writes a line of 412 bytes takes" "0 |  | $4 writes"

"$program" < "$dir/edges" > "$dir/whole" 2> "$dir/err"
echo $? > "$dir/status"
same "line feeds at the edges of blocks" "$dir/edges_answers"

"$program" < "$dir/longest" > "$dir/whole" 2> "$dir/err"
echo $? > "$dir/status"
same "lines of 100 MB" "$dir/longest_answers"

{ printf 'POINT(1 2)\nPOI'; sleep 1; printf 'NT(3 4)\nx\n'; } | "$program" > "$dir/whole" 2> "$dir/err"
echo "${PIPESTATUS[1]}" > "$dir/status"
same "an input that stops for a second within a line" "$dir/three_answers"

run bash -c 'ulimit -v 50000; exec "$1" < "$2"' - "$program" "$dir/wide"
says "out of memory: the answers to the lines before were written" "1 | POINT(1 2) | wkt: out of memory"

for stack in 8192 256; do
  for case in open open_but_one points_before points_behind side_by_side; do
    run bash -c 'ulimit -s "$1"; exec timeout 20 "$2" < "$3"' - "$stack" "$program" "$dir/$case"
    says "a million geometries, $case, on a stack of $stack KB" "0 | refused
POINT(1 2) | "
  done
done

for stack in 8192 256; do
  bash -c 'ulimit -s "$1"; exec timeout 60 "$2" < "$3"' - "$stack" "$program" "$dir/deep" > "$dir/whole" 2> "$dir/err"
  echo $? > "$dir/status"
  same "a million collections in one another on a stack of $stack KB" "$dir/deep"
done

for memory in 3500 6000 20000 50000; do
  run bash -c 'ulimit -v "$1"; exec timeout 60 "$2" < "$3"' - "$memory" "$program" "$dir/deep"
  head -n "$(wc -l < "$dir/out")" "$dir/deep" | cmp -s - "$dir/out" && : > "$dir/out" || echo "a part of an answer" > "$dir/out"
  says "the same in $memory KB of memory: whole answers alone" "1 |  | wkt: out of memory"
done

# Each has one line of 20 MB: a million nested collections, and five million coordinates.
peak "a million collections in one another in less than 65 MB" 65000 "$dir/deep" "$program"
peak "a line of 20 MB in less than 65 MB" 65000 "$dir/wide" "$program"
}

cases wktline "" 3 1
cases wktstream "POINT(1 2)" 1 1

# What only wktstream does. The pipe is kept open for writing, so the program waits for more.
rm -f "$dir/pipe"
mkfifo "$dir/pipe"
"$program" < "$dir/pipe" > "$dir/whole" 2> "$dir/err" &
child=$!
exec 3> "$dir/pipe"
printf 'POINT(1 2)\nPOI' >&3
sleep 0.5
cp "$dir/whole" "$dir/out"
printf 'NT(3 4)\n' >&3
exec 3>&-
wait $child
echo $? > "$dir/status"
says "a whole line is answered while the input waits within the next" "0 | POINT(1 2) | "

for _ in $(seq 100); do cat "$dir/edges"; done > "$dir/many"
"$program" < "$dir/pipe" > /dev/null 2> "$dir/err" &
child=$!
exec 3> "$dir/pipe"
cat "$dir/many" >&3
sleep 0.5
peak=$(sed -n 's/VmHWM:[[:space:]]*\([0-9]*\) kB/\1/p' /proc/$child/status)
exec 3>&-
wait $child
echo $? > "$dir/status"
[ "$peak" -lt 2500 ] && : > "$dir/out" || echo "$peak kB" > "$dir/out"
says "40 MB of lines of up to 131 kB: a peak of less than 2.5 MB" "0 |  | "

exit $wrong
