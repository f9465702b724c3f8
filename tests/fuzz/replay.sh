#!/usr/bin/env bash
# Builds the fuzz afresh and runs its seeds and its corpus once, on one core, with low priority: some two minutes.
#
# Status 0: no difference, or this machine lacks what it takes, which is printed. Else: a difference, or it failed.
set -u
here=$(cd "$(dirname "$0")" && pwd)
dir=$(mktemp -d)
trap 'rm -rf "$dir"' EXIT
lacks() {
    echo "fuzz: not run, for there is no $1"
    exit 0
}
for tool in rt rustc python3 ld.lld; do
    command -v $tool > /dev/null || lacks $tool
done
clang=$(command -v clang-14 || command -v clang) || lacks clang
echo 'int LLVMFuzzerTestOneInput(char *data, long size) { return 0; }' > "$dir/one.c"
"$clang" -fsanitize=fuzzer -fuse-ld=lld "$dir/one.c" -o "$dir/one" > "$dir/said" 2>&1 || lacks "libFuzzer"

# On a busy machine an input may wait long for a processor.
SLOW=900 WORK=$dir/work nice -n 10 "$here/fuzz.sh" 0 > "$dir/said" 2>&1
status=$?
if [ $status = 0 ]; then
    echo "fuzz: $(sed -n 's/^Done \([0-9]*\) runs.*/\1/p' "$dir/said") inputs, no difference"
else
    tail -n 40 "$dir/said"
    echo "fuzz: tests/fuzz/fuzz.sh 0 fails with $status"
fi
exit $status
