#!/usr/bin/env bash
# Makes the Debian packages of the release that release.sh has made: libwkt0, libwkt-dev, python3-wkt, wkt-tools,
# libsqlite3-mod-wkt, and for the PostgreSQL that debian/control names postgresql-15-wkt.
#
# debs.sh [OUT [ARCHITECTURE..]]: in OUT (packaging/out) is the release, and there the packages go; those of this machine's
# architecture where none is named (amd64, arm64). It needs debhelper, dh-python, libpython3-dev, libsqlite3-dev and
# postgresql-server-dev-15, and for another architecture crossbuild-essential-ARCHITECTURE and libpython3-dev:ARCHITECTURE:
# those packages are made without their tests (dist/cross.sh) and without PostgreSQL's, whose headers are of one processor,
# and nothing looks whether what they need is installed. Where lintian is there, it has to be content. An architecture whose
# packages can't be made leaves those that are there, and the status is 1 at the end.
set -eu
unset WKT_C_LIB WKT_LIB_DIR
unset CDPATH
here=$(cd "$(dirname "$0")" && pwd)
out=$(cd "${1:-$here/out}" && pwd)
shift || true
own=$(dpkg --print-architecture)
[ $# != 0 ] || set -- "$own"
work=$(mktemp -d)
trap 'rm -rf "$work"' EXIT
failed=()
for architecture; do
    mkdir "$work/$architecture"
    tar -C "$work/$architecture" -xzf "$out"/wkt-proved-*.tar.gz
    words=(-b -us -uc)
    [ "$architecture" = "$own" ] || words+=(-d "-a$architecture" -Pcross)
    if (
        cd "$work/$architecture"/wkt-proved-*/
        [ "$architecture" = "$own" ] || export DEB_BUILD_OPTIONS=nocheck
        dpkg-buildpackage "${words[@]}" > "$work/log" 2>&1
    ); then
        rm -f "$out"/*_"$architecture".deb
        cp "$work/$architecture"/*.deb "$out"
    else
        tail -n 40 "$work/log"
        failed+=("$architecture: dpkg-buildpackage")
    fi
done
if compgen -G "$out/*.deb" > /dev/null; then
    ! command -v lintian > /dev/null || lintian --allow-root --fail-on error,warning "$out"/*.deb || failed+=(lintian)
    "$here/sbom.py" "$out"
    (cd "$out" && ls -l ./*.deb)
fi
[ "${#failed[@]}" = 0 ] || { printf 'debs.sh: FAILED: %s\n' "${failed[@]}"; exit 1; }
