#!/usr/bin/env bash
# Tests the Rust crate over the library in capi/out: by the cargo that is found, and with all features by Debian's
# cargo and rustc, the oldest that the crate promises; over a library with numbers of later versions; its package; its
# documentation without a library; the example of README.md and the program of FROM_WKT.md; and clippy and rustfmt, where
# the cargo that is found has them.
# test.sh TARGET: its tests on another system, by Debian's Rust, as far as the library and the values go. With
# x86_64-pc-windows-gnu it needs libstd-rust-dev-windows, gcc-mingw-w64-x86-64 and wine64; with s390x-unknown-linux-gnu, say,
# libstd-rust-dev:s390x, gcc-s390x-linux-gnu and qemu-user-static.
# The crates come from Debian's registry (librust-geo-types-dev, librust-cc-dev), so no network is needed.
set -u
unset CDPATH # with which `cd` says where it went
cd "$(dirname "$0")" || exit 1
fail() { echo "rust: $*"; exit 1; }
dir=$(mktemp -d)
trap 'rm -rf "$dir"' EXIT
../tests/lib/cargo_home.sh "$dir/home" || fail "no crates"
export CARGO_HOME=$dir/home WKT_LIB_DIR=${WKT_LIB_DIR:-$PWD/../capi/out}
# All is built once: nothing serves the next build, and nobody debugs it.
export CARGO_INCREMENTAL=0 CARGO_PROFILE_DEV_DEBUG=0

# run WORDS COMMAND..: says the words, and how many tests passed
run() {
    local words=$1
    shift
    "$@" > "$dir/said" 2>&1 || { cat "$dir/said"; fail "$words: fails"; }
    echo "rust: $words: $(awk '/^test result: ok/ { n += $4 } END { print n + 0 }' "$dir/said") tests"
}
if [ $# = 1 ]; then
    name=CARGO_TARGET_$(tr a-z- A-Z_ <<< "$1") processor=${1%%-*}
    case $1 in
        *windows*) export "${name}_RUNNER=wine" RUST_BACKTRACE=0 ;; # wine ends a program that prints one
        *) export "${name}_LINKER=$processor-linux-gnu-gcc" "${name}_RUNNER=qemu-$processor-static -L /usr/$processor-linux-gnu" ;;
    esac
    run "$1" env -u WKT_LIB_DIR PATH="/usr/bin:$PATH" cargo test --offline --target "$1" --target-dir "$dir/cross" \
        --test values --test dialects --test decimals --test calls -- --skip nesting
    exit
fi
run "$(cargo --version)" cargo test --offline --target-dir "$dir/found"
[ -x /usr/bin/cargo ] || fail "no Debian cargo: tests/needs.sh installs it"
run "$(/usr/bin/cargo --version), geo-types, serde" env PATH="/usr/bin:$PATH" cargo test --offline --all-features --target-dir "$dir/debian"

# A target without a C library is refused with a reason, and not by a compiler that misses a header.
script=$(find "$dir/found" -name build-script-build -path '*wkt_proved-*' | head -n 1)
said=$(CARGO_CFG_TARGET_FAMILY=wasm CARGO_CFG_TARGET_OS=unknown "$script" 2>&1) && fail "wasm32-unknown-unknown isn't refused"
[[ $said == *"wasm32-unknown-unknown has no C library"* ]] || fail "wasm32-unknown-unknown: $said"

# A later library, of other names and with later.c in their place.
renamed=()
for name in canonical explain hint infer message; do renamed+=("--redefine-sym=wkt_$name=now_$name"); done
mkdir "$dir/later"
objcopy "${renamed[@]}" "$WKT_LIB_DIR/libwkt.a" "$dir/later/libwkt.a" &&
    "${CC:-cc}" -Wall -Wextra -Werror -fPIC -I"$WKT_LIB_DIR" -c tests/later.c -o "$dir/later.o" &&
    ar rc "$dir/later/libwkt.a" "$dir/later.o" || fail "later.c"
run "a later library" env WKT_LIB_DIR="$dir/later" cargo test --offline --test later --target-dir "$dir/found" -- --ignored

# The package that cargo would publish, made and built of portable C, where cargo has unpacked it; without optimizing, and with
# each access to the module's memory by a call, since else it takes minutes.
portable=(env -u WKT_LIB_DIR CFLAGS='-O0 -Dalways_inline=')
"${portable[@]}" ./package.sh "$dir/package" > "$dir/said" 2>&1 || { cat "$dir/said"; fail "package.sh"; }
! grep 'manifest has no' "$dir/said" || fail "its manifest"
said=$(cd "$dir"/package/target/package/wkt_proved-*/ && "${portable[@]}" cargo run --offline -q --example show --target-dir "$dir/package/target" -- 'point ( 1 2.50 )') || fail "its package"
[ "$said" = 'POINT(1 2.5)' ] || fail "its package: $said"
echo "rust: its package is built, and answers"

# As docs.rs builds it: the crate alone, and no library.
cp -r Cargo.toml README.md build.rs src examples "$dir"
(cd "$dir" && env -u WKT_LIB_DIR DOCS_RS=1 RUSTDOCFLAGS='-D warnings' cargo doc --offline --no-deps -q) || fail "its documentation"
echo "rust: its documentation is built without a library"
# The example of README.md: what stands behind `let NAME = CALL;` is what NAME prints.
example=$(sed -n '/^```rust$/,/^```$/{//!p}' README.md)
wanted=$(sed -nE 's,^let .*; +// (.*)$,\1,p' <<< "$example" | tr -d '"')
[ "$(wc -l <<< "$wanted")" -gt 2 ] || fail "README.md has no example"
{
    echo 'fn main() -> Result<(), Box<dyn std::error::Error>> {'
    sed -E 's,^let ([a-z]+) = .*;,&\nprintln!("{}"\, \1);,' <<< "$example"
    echo 'Ok(()) }'
} > "$dir/examples/readme.rs"
said=$(cd "$dir" && cargo run --offline -q --example readme --target-dir "$dir/found") || fail "the example of README.md"
[ "$said" = "$wanted" ] || { echo "$said"; fail "the example of README.md: other answers"; }
echo "rust: README.md: $(wc -l <<< "$wanted") answers, each as it says"
# The program of FROM_WKT.md, and what the page says that it prints.
block() { awk -v fence='```' -v kind="$1" '$0 == fence && on { exit } on { print } $0 == fence kind { on = 1 }' FROM_WKT.md; }
block rust > "$dir/examples/from_wkt.rs"
said=$(cd "$dir" && cargo run --offline -q --example from_wkt --target-dir "$dir/found") || fail "the program of FROM_WKT.md"
[ -n "$said" ] && [ "$said" = "$(block text)" ] || { echo "$said"; fail "the program of FROM_WKT.md: other answers"; }
echo "rust: FROM_WKT.md: its program prints what it says"
if cargo clippy --version > /dev/null 2>&1; then
    cargo clippy --offline -q --all-targets --target-dir "$dir/found" -- -D warnings -W clippy::pedantic || fail "clippy"
    cargo fmt --check || fail "rustfmt"
    echo "rust: clippy and rustfmt report nothing"
fi
