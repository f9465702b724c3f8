#!/usr/bin/env bash
# Puts the package together, as npm lays it out: pack.sh MODULE OUT [SECONDS]. It prints OUT/wkt-proved-VERSION.tgz.
# In a clone `javascript/pack.sh dist/wasm/wkt.wasm .` makes it here, and npm install takes it.
#
# MODULE is wkt.wasm. The bytes depend on the files alone: their time is SECONDS since 1970, or the last commit's. `npm pack`
# isn't used, since the module and the licences stand in other folders.
set -eu
[ $# -ge 2 ] || { sed -n '2,3s/^# //p' "$0" >&2; exit 2; }
unset CDPATH # with which `cd` says where it went
here=$(cd "$(dirname "$0")" && pwd)
top=$(dirname "$here")
module=$1 out=$(cd "$2" && pwd)
when=${3:-$(git -C "$top" log -1 --format=%ct)}
version=$("$top/dist/version.sh")
work=$(mktemp -d)
trap 'rm -rf "$work"' EXIT
mkdir "$work/package"
cp -r "$here"/{README.md,inline.d.ts,src} "$top"/LICENSE-{APACHE,MIT} "$work/package"
# What a clone makes for itself is there already.
"$top/dist/version.sh" in "$here/package.json" | sed '/^    "prepare":/d' > "$work/package/package.json"
cp "$top/dist/NOTICE" "$work/package"
# Of what the module was made, where that is beside it, as in dist/wasm.
[ ! -e "$(dirname "$module")/PROVENANCE" ] || cp "$(dirname "$module")/PROVENANCE" "$work/package"
"$here/build.py" "$module" "$work/package"
tar -C "$work" --format=ustar --sort=name --owner=0 --group=0 --numeric-owner --mode=u=rwX,go=rX --mtime="@$when" -cf - package |
    gzip -9n > "$out/wkt-proved-$version.tgz"
echo "$out/wkt-proved-$version.tgz"
