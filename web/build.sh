#!/usr/bin/env bash
# Makes wkt.wasm, the module for JavaScript, of the proved crate wkt_c.
#
# build.sh [--twice] FILE: into that file. It proves and builds the crate for WebAssembly with addresses of 64 bits, over the
# libraries that `rt ci` left in crates/*/out/rlib, links it, and lowers the addresses to 32 bits by binaryen's wasm-opt, since
# not every engine has the wide ones. It fails where the module imports anything.
# --twice: two builds have to have the same bytes. INCREMENTAL=yes: the proof begins with what the gate or `rt check` left of the crate.
# build.sh [--twice] --dist: into dist/wasm, with a PROVENANCE. Run it after .ci/run, in that checkout.
set -eu
cd "$(dirname "$0")/.."
stop() { echo "web/build.sh: $*" >&2; exit 1; }
twice=
[ "${1:-}" != --twice ] || { twice=yes; shift; }
[ $# = 1 ] || stop "which file?"
for name in rt wasm-opt node; do command -v $name > /dev/null || stop "no $name: tests/needs.sh says what is installed"; done
kit=$(dirname "$(dirname "$(realpath "$(command -v rt)")")")
work=$(mktemp -d)
trap 'rm -rf "$work"' EXIT

# built FILE: the module
built() {
    dist/build.py wkt_c wasm64 "$work/wkt.a" > "$work/said" 2>&1 || { tail -n 20 "$work/said"; stop "wkt_c isn't built"; }
    "$kit/bin/rattle-link" --target wasm64-unknown-unknown --toolchain "$kit/toolchain" -o "$work/wkt64.wasm" "$work/wkt.a" > "$work/said" 2>&1 ||
        { cat "$work/said"; stop "the module isn't linked"; }
    wasm-opt --enable-memory64 --enable-bulk-memory --enable-sign-ext --enable-mutable-globals --enable-nontrapping-float-to-int \
        --memory64-lowering --strip-debug --strip-producers "$work/wkt64.wasm" -o "$1"
}

built "$work/wkt.wasm"
[ -z "$twice" ] || { built "$work/again.wasm" && cmp "$work/wkt.wasm" "$work/again.wasm" || stop "a second build gave other bytes"; }
# What stands in it: no import, and the functions that the crate exports.
mapfile -t names < <(sed -n 's/^pub extern "C" fn \(wkt_[a-z_]*\)(.*/\1/p' crates/wkt_c/src/*.rt)
node -e '
    const module = new WebAssembly.Module(require("fs").readFileSync(process.argv[1]));
    const names = WebAssembly.Module.exports(module).map((one) => one.name);
    const wanted = process.argv.slice(2).filter((name) => !names.includes(name));
    if (WebAssembly.Module.imports(module).length || wanted.length) {
        console.error(`it has an import, or no ${wanted}`);
        process.exit(1);
    }
' "$work/wkt.wasm" memory __heap_base "${names[@]}" || stop "the module isn't whole"

if [ "$1" != --dist ]; then
    cp "$work/wkt.wasm" "$1"
    exit
fi
[ -z "$(git status --porcelain -- crates crates.txt)" ] || stop "crates/ isn't what is committed"
mkdir -p dist/wasm
cp "$work/wkt.wasm" dist/wasm/wkt.wasm
{
    echo "commit     $(git rev-parse HEAD)"
    echo "crates     $(git rev-parse HEAD:crates)"
    echo "crates.txt $(git rev-parse HEAD:crates.txt)"
    echo "kit        $(rt version)"
    echo "kit's sum  $(sed -n 's/^archive //p' "$kit/WHAT" 2> /dev/null)"
    echo "clang      $(sha256sum < "$kit/toolchain/bin/clang" | cut -d ' ' -f 1), $("$kit/toolchain/bin/clang" --version | sed -n 1p)"
    echo "by         web/build.sh: rattle build --backend llvm --target wasm64-unknown-unknown, rattle-link, $(wasm-opt --version)"
    (cd dist/wasm && sha256sum wkt.wasm)
} > dist/wasm/PROVENANCE
