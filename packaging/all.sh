#!/usr/bin/env bash
# Makes a whole release of what is committed, tries it, and says what is left for a person: all.sh [OUT]
#
# release.sh, debs.sh, rust/package.sh and test.sh, one after the other, over OUT (packaging/out); each says what it needs. SKIP=debs
# leaves out the Debian packages, SKIP=rust the Rust crate, whose portable C takes some minutes.
set -eu
unset CDPATH
here=$(cd "$(dirname "$0")" && pwd)
root=$(dirname "$here")
out=$(mkdir -p "${1:-$here/out}" && cd "${1:-$here/out}" && pwd)
skips() { case ",${SKIP:-}," in *",$1,"*) true ;; *) false ;; esac; }
[ -z "$(git -C "$root" status --porcelain)" ] || { echo "all.sh: what isn't committed isn't released: git status"; exit 1; }
"$here/release.sh" "$out"
skips rust || "$root/rust/package.sh" "$out"
skips debs || "$here/debs.sh" "$out"
"$here/sbom.py" "$out"
"$here/test.sh" "$out"

# lacks PATTERN WORDS: says them where OUT has no such file
lacks() { compgen -G "$out/$1" > /dev/null || echo "  lacking: $2"; }
version=$("$root/dist/version.sh")
echo "The release is in $out, and was tried."
for processor in x86_64 aarch64; do
    lacks "wkt_proved-*-py3-none-*_$processor.whl" "the wheel for Python 3.8 on, on $processor, which needs $processor-linux-gnu-gcc"
    lacks "wkt_proved-*-cp311-abi3-*_$processor.whl" "the wheel for Python 3.11 on, on $processor, which needs libpython3-dev of that processor too"
    lacks "wkt_proved-*-cp313-cp313t-*_$processor.whl" "the wheel for free-threaded Python 3.13, on $processor, which needs python3.13t on such a machine"
done
for architecture in amd64 arm64; do
    lacks "wkt-tools_*_$architecture.deb" "the Debian packages for $architecture: packaging/debs.sh $out $architecture"
done
case $version in *-dev*)
    echo "It is no release: $version. tests/gate/version.py --write VERSION, and a date in CHANGELOG.md, make one."
    exit
    ;;
esac
cat << END
Left for a person, who has the keys and the accounts:
  git tag -s v$version && git push origin v$version
  gpg --armor --detach-sign $out/SHA256SUMS
  upload SHA256SUMS, its signature, and what it lists, to the page of the release
  twine upload $out/wkt_proved-$version*.whl $out/wkt_proved-$version.tar.gz
  npm publish $out/wkt-proved-$version.tgz
  cargo publish --manifest-path $out/crate/Cargo.toml
Not yet: PGXN and Debian, which take no objects that they can't build.
END
