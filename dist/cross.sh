#!/usr/bin/env bash
# The library and the programs for another processor, by qemu-user: the tests in C, the keys, the command's cases, nesting and
# threads, the examples, the answers to stored texts, and what `make install` leaves.
#
# cross.sh [PROCESSOR]: aarch64 where none is named. It needs PROCESSOR-linux-gnu-gcc with its C library (on Debian
# gcc-aarch64-linux-gnu, libc6-dev-arm64-cross) and qemu-PROCESSOR-static (qemu-user-static).
set -eu
cd "$(dirname "$0")/.."
processor=${1:-aarch64}
export CC=$processor-linux-gnu-gcc RUN="qemu-$processor-static -L /usr/$processor-linux-gnu"
out=$(mktemp -d)
trap 'rm -rf "$out"' EXIT

make -s -C dist check O="$out"
$CC -O2 -Wall -Wextra -Werror -I"$out" -o "$out/deep" capi/tests/deep.c "$out/libwkt.a" -pthread
$RUN "$out/deep"
for example in show lines stream; do
    $CC -O2 -I"$out" -o "$out/$example" "capi/examples/$example.c" "$out/libwkt.a"
done
$RUN "$out/show" > /dev/null
for example in lines stream; do $RUN "$out/$example" < crates/wktline/stdin | cmp - crates/wktline/stdout; done
# The shared library, too.
$CC -O2 -I"$out" -o "$out/shared" tests/gate/keys.c -L"$out" -lwkt
$RUN -E LD_LIBRARY_PATH="$out" "$out/shared" < tests/data/keys.tsv
# The command answers the stored texts as that of this machine does.
make -s -C dist O="$out/here" CC=cc
cut -f 1 crates/wkt_tables/stdin | cat - tests/fuzz/corpus.txt > "$out/texts"
for call in "check -n 0" "check -n 0 -p 6" "canon" "canon -p 6 --front" "kind" "dups"; do
    "$out/here/wkt" $call "$out/texts" > "$out/wanted" 2>&1 || true
    $RUN "$out/wkt" $call "$out/texts" 2>&1 | cmp - "$out/wanted"
done
echo "$(wc -l < "$out/texts") lines, by six calls of the command: as on $(uname -m)"
tests/gate/c_install.sh
echo "$processor: all passed"
