#!/usr/bin/env bash
# Tests what is made for JavaScript: the module wkt.wasm, the package over it, the examples of its README, and the page.
#
# It builds the module by web/build.sh, over the libraries that rt ci left and with the proofs that the gate kept of the
# library for C, and compares it with dist/wasm/wkt.wasm. WKT_WASM names a module that is built already:
# WKT_WASM=dist/wasm/wkt.wasm needs nothing of the prover. The package has to give the answers of the native library to
# 40,000 texts: LIB names it (capi/out/libwkt.so). The examples of javascript/README.md run in the package as it is packed,
# and each value that the page writes behind a call is compared.
#
# It needs Node 18 or later, tsc, Python and, for the page, Chromium and Selenium (tests/needs.sh installs them). SKIP=types
# passes tsc over, SKIP=page the page, SKIP=esbuild, rollup or webpack that bundler.
set -u
cd "$(dirname "$0")/../.." || exit 1
fail() { echo "web: $*"; exit 1; }
skips() { case ",${SKIP:-}," in *",$1,"*) true ;; *) false ;; esac; }
command -v node > /dev/null || fail "no node: tests/needs.sh installs it"
skips types || command -v tsc > /dev/null || fail "no tsc: tests/needs.sh installs it"
lib=$(readlink -f "${LIB:-capi/out/libwkt.so}")
[ -e "$lib" ] || fail "no native library: $lib"
dir=$(mktemp -d)
trap 'rm -rf "$dir"' EXIT

module=${WKT_WASM:-$dir/wkt.wasm}
[ -n "${WKT_WASM:-}" ] || INCREMENTAL=yes web/build.sh "$module" || fail "the module isn't built"
module=$(readlink -f "$module")
[ -e "$module" ] || fail "no module: $module"
export WKT_WASM=$module
# of NAME: what dist/wasm says of itself
of() { sed -n "s/^$1  *//p" dist/wasm/PROVENANCE 2> /dev/null; }
if cmp -s "$module" dist/wasm/wkt.wasm; then
    echo "web: the module has the bytes of dist/wasm"
elif [ "$(git rev-parse HEAD:crates) $(git rev-parse HEAD:crates.txt)" = "$(of crates) $(of crates.txt)" ]; then
    fail "these sources gave another module than dist/wasm has"
else
    echo "web: dist/wasm has the module of other sources"
fi

# No regular expression runs over a text, where it may take time that grows faster than the text: the sources have none.
! grep -nE '[(=,:] */[^/*].*/[a-z]*[,;.)]|RegExp|\.(match|matchAll|search)\(' javascript/src/*.js || fail "a regular expression"

# The answers of the native library, while the types are checked.
export WKT_NATIVE=$dir/native
WKT_LIB=$lib python3 javascript/test/native.py 40000 > "$WKT_NATIVE" &
writing=$!

# The package as it is released, where nothing of the repository is.
package=$(javascript/pack.sh "$module" "$dir") || fail "pack.sh"
app=$dir/app
mkdir -p "$app/node_modules/wkt-proved"
tar -C "$app/node_modules/wkt-proved" --strip-components=1 -xzf "$package"
for name in package.json README.md LICENSE-MIT LICENSE-APACHE NOTICE wkt.wasm src/index.js src/index.d.ts src/packed.js cjs/index.cjs cjs/inline.cjs; do
    [ -s "$app/node_modules/wkt-proved/$name" ] || fail "the package has no $name"
done
echo '{ "type": "module" }' > "$app/package.json"
cp javascript/test/by_name.* "$app"
for file in "$app"/by_name.*; do
    [ "$(cd "$app" && node "$file")" = "POINT(1 2.5) POINT(1 2.5)" ] || fail "the package by its name: $file"
done
# As npm installs the folder of a clone: by a link, once its script `prepare` has run there.
linked="$dir/a clone"
mkdir -p "$linked/dist/wasm" "$linked/app/node_modules" && git ls-files -z -- javascript web | tar --null -T - -cf - | tar -C "$linked" -xf - &&
    cp "$module" "$linked/dist/wasm/wkt.wasm" && ln -s "$linked/javascript" "$linked/app/node_modules/wkt-proved" && cp "$app"/by_name.* "$app/package.json" "$linked/app"
(cd "$linked/javascript" && sh -c "$(node -p 'require("./package.json").scripts.prepare')") || fail "npm install of the folder"
for file in "$linked"/app/by_name.*; do
    [ "$(cd "$linked/app" && node "$file")" = "POINT(1 2.5) POINT(1 2.5)" ] || fail "the folder of a clone by its name: $file"
done
cp javascript/test/{{types,bare,shared}.ts,required.cts} "$app"
echo "web: $(basename "$package"): $(stat -c %s "$package") bytes, imported and required by its name"
# types WORD..: the compiler of TypeScript finds the package so, and reports nothing
types() { (cd "$app" && tsc --strict --noEmit --target es2022 "$@") || fail "types: $*"; }
if ! skips types; then
    for found in '--module node16 --moduleResolution node16' '--module es2022 --moduleResolution node'; do
        # shellcheck disable=SC2086 # words
        types $found --lib es2022,dom,dom.iterable types.ts && types $found --lib es2022 bare.ts
    done
    types --module node16 --moduleResolution node16 --lib es2022 required.cts
    types --module es2022 --moduleResolution node --noLib shared.ts
    echo "web: types: tsc $(tsc --version | tr -dc 0-9.) --strict reports nothing"
fi

wait $writing || fail "native.py"
node --test --test-reporter=tap javascript/test/*.test.js > "$dir/said" 2>&1 || { grep -E -A 24 '^ *not ok' "$dir/said"; fail "the tests of the package"; }
grep -q '^# skipped 0$' "$dir/said" || { grep SKIP "$dir/said"; fail "a test was skipped"; }
echo "web: node $(node --version): $(sed -n 's/^# pass //p' "$dir/said") tests of the package passed"
# The examples of javascript/README.md, as a user of the package has them: each line `CALL; // VALUE` returns that value.
examples=$(sed -n '/^```js$/,/^```$/{//!p}' javascript/README.md)
wanted=$(grep -c '; // ' <<< "$examples")
[ "$wanted" -gt 2 ] || fail "javascript/README.md: $wanted examples"
{
    printf '%s\n' 'import assert from "node:assert/strict";' 'let compared = 0;'
    sed -E 's,^( *)(.*); // (.*)$,\1assert.deepEqual(\2\, \3); compared++;,' <<< "$examples"
    echo 'console.log(compared);'
} > "$app/examples.js"
compared=$(cd "$app" && node examples.js) || fail "the examples of javascript/README.md"
[ "$compared" = "$wanted" ] || fail "javascript/README.md: $compared of its $wanted examples were reached"
echo "web: javascript/README.md: $compared examples, each as it says"

# bundled NAME FROM COMMAND..: what a bundler makes of an app over wkt-proved (FROM is empty) or wkt-proved/inline, in a folder
# of its own. The command takes the app, and writes js/app.js. Any warning fails.
bundles=()
bundled() {
    local out=$dir/$1${2/\//-}
    mkdir -p "$out/js"
    echo "<!doctype html><title>wkt</title><body><script type='module' src='js/app.js'></script>" > "$out/index.html"
    echo "import { load } from 'wkt-proved$2'; load().then((wkt) => document.body.append(wkt.canonical('point ( 1 2.50 )')));" > "$app/app.js"
    (cd "$app" && out=$out "${@:3}") > "$dir/said" 2>&1 || { cat "$dir/said"; fail "$1: wkt-proved$2"; }
    ! grep -i warn "$dir/said" || fail "$1: wkt-proved$2: a warning"
    # These don't copy the module: they leave its address as it is, one folder up.
    [ -n "$2" ] || [ "$1" = webpack ] || cp "$module" "$out"
    bundles+=("$out")
}
# by NAME COMMAND..: both entries by a bundler, unless it is passed over
by() {
    skips "$1" && return
    command -v "$1" > /dev/null || fail "no $1: tests/needs.sh installs it"
    bundled "$1" '' "${@:2}"
    bundled "$1" /inline "${@:2}"
}
# shellcheck disable=SC2016 # expanded where it runs
{
    by esbuild sh -c 'esbuild app.js --bundle --minify --format=esm --log-level=warning --outfile="$out/js/app.js"'
    by rollup sh -c 'rollup app.js -p @rollup/plugin-node-resolve -f es --failAfterWarnings -o "$out/js/app.js"'
    by webpack sh -c 'webpack --mode production --no-performance --entry ./app.js -o "$out/js" --output-filename app.js'
}

if ! skips page; then
    said=$(javascript/test/browser.py "$app/node_modules/wkt-proved" "${bundles[@]}" 2>&1) || { echo "$said"; fail "the package in Chromium"; }
    echo "web: $said"
fi
if [ -e web/make.py ] && ! skips page; then
    node --test --test-reporter=tap web/test/*.test.js > "$dir/said" 2>&1 || { cat "$dir/said"; fail "the parts of the page"; }
    web/make.py --module "$module" "$dir/index.html" && web/test.py "$dir/index.html" || fail "the page"
    if [ -e dist/web/index.html ] && cmp -s "$module" dist/wasm/wkt.wasm; then web/make.py --check || fail "the page in dist/web"; fi
fi
