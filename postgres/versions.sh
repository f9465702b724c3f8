#!/usr/bin/env bash
# Runs test.sh on PostgreSQL 13, in a Debian 11, and test.sh, postgis.sh and recipes.sh on 17, in a Debian 13: versions.sh [FOLDER]
#
# FOLDER as test.sh has it. It is run by hand: it needs root, debootstrap, which unpacks the two, and Debian's archive
# (DEBIAN_MIRROR), and takes some ten minutes. DEBIAN=FOLDER unpacks there and leaves them, so that the next run finds them.
set -eu
here=$(cd "$(dirname "$0")" && pwd)
. "$here/server.sh"
library "${1:-}"
dir=$(mktemp -d)
trap 'rm -rf "$dir"' EXIT
# unpacked SUITE PACKAGES: that Debian in $root, with the tests
unpacked() {
    root=${DEBIAN:-$dir}/$1
    if ! ls "$root"/usr/lib/postgresql/*/bin/postgres > /dev/null 2>&1; then
        debootstrap --variant=minbase --include="gcc,libc6-dev,make,procps,$2" "$1" "$root" "${DEBIAN_MIRROR:-http://deb.debian.org/debian}" \
            > "$dir/log" 2>&1 || { tail -n 20 "$dir/log"; exit 1; }
    fi
    rm -rf "$root/wkt"
    mkdir -p "$root/wkt/tests/data"
    cp -r "$here" "$root/wkt/postgres"
    cp "$here"/../tests/data/*.tsv "$root/wkt/tests/data/"
    cp "$here"/../SECURITY.md "$root/wkt/"
    cp -r "$wkt" "$root/wkt/library"
}
# inside COMMAND..: in that Debian, with its own processes and shared memory
inside() {
    unshare --mount --pid --fork sh -eu -c 'root=$1; shift; mount -t proc proc "$root/proc"
        mount -t tmpfs tmpfs "$root/dev/shm"; exec chroot "$root" env -i PATH="$PATH" "$@"' sh "$root" "$@"
}
unpacked bullseye postgresql-13,postgresql-server-dev-13
inside /wkt/postgres/test.sh /wkt/library
unpacked trixie postgresql-17,postgresql-server-dev-17,postgresql-17-postgis-3,python3-psycopg,python3-asyncpg,python3-sqlalchemy
inside /wkt/postgres/test.sh /wkt/library
inside /wkt/postgres/postgis.sh /wkt/library
inside /wkt/postgres/recipes.sh /wkt/library
