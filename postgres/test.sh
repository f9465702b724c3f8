#!/usr/bin/env bash
# Tests the extension over the library in FOLDER, in a server of its own: test.sh [FOLDER]
#
# FOLDER has wkt.h and libwkt.a; it is WKT_LIB_DIR without an argument, and capi/out without that. It needs PostgreSQL
# with the headers of its server, gcc and make, and no root. RESULTS=FOLDER keeps what the statements print, VERBOSE=1
# says more, SANITIZED=yes looks for errors of memory and of arithmetic.
set -eu
. "$(dirname "$0")/server.sh"
here=$(cd "$(dirname "$0")" && pwd)
test_server "$@"

is "version: that of the header" "$(sed -n 's/^#define WKT_VERSION "\(.*\)"/\1/p' "$wkt/wkt.h")" "$(ask postgres "create extension wkt" "select wkt_version()" "drop extension wkt")"
# No other user can reach the server, in which whoever connects is superuser.
owner=$(stat -c %U "/proc/$(head -n 1 "$dir/base/data/postmaster.pid")")
is "private: mode and owner of the folder" "700 $owner" "$(stat -c '%a %U' "$dir")"
if [ "$(id -u)" = 0 ]; then
    said=$(setpriv --reuid nobody --regid nogroup --clear-groups "$from/psql" -X -At -c "select 1" 2>&1) && wrong "private: nobody is let in: $said"
    [[ ${said:-} == *"Permission denied"* ]] || wrong "private: $said"
fi
echo "private: $owner alone reaches the server"
. "$here/tests/build.sh"
# The statements of sql/, whose answers are in expected/, as `make installcheck` runs them on any server.
cd "$dir/work"
as make -s installcheck PG_CONFIG="$config" WKT_LIB_DIR="$wkt" > regress.log 2>&1 &&
    grep -q "All [0-9]* tests passed" regress.log || { wrong "installcheck"; cat regress.log regression.diffs; }
[ -z "${RESULTS:-}" ] || cp results/*.out "$RESULTS"
[ $status != 0 ] || echo "statements: $(cat sql/*.sql | grep -c ';') lines of SQL as expected"

. "$here/tests/keys.sh"
. "$here/tests/times.sh"
# Some examples of README.md, and wkt_postgis, need PostgreSQL 14.
version=$(ask postgres "show server_version_num")
[ "$version" -lt 140000 ] || . "$here/tests/queries.sh"
. "$here/tests/updates.sh"
. "$here/tests/dump.sh"
# Whoever may create in a database creates the extension there, and no one else.
ask postgres "create role maker login" "create role guest login" "create database shared" "grant create on database shared to maker"
is "roles: who may create" "POINT(1 2)" "$(PGUSER=maker ask shared "create extension wkt" "select wkt_canonical('point(1 2)')")"
is "roles: others may call" "POINT(1 2)" "$(PGUSER=guest ask shared "select wkt_canonical('point(1 2)')")"
PGUSER=maker ask shared "drop extension wkt"
PGUSER=guest fails shared "create extension wkt" 'permission denied to create extension "wkt"'
# In a schema of its own, which may get another name.
PGUSER=maker ask shared "create schema geo" "create extension wkt schema geo"
is "roles: a schema of its own" "POINT(1 2)" "$(PGUSER=maker ask shared "select geo.wkt_canonical('point(1 2)')::text::geo.wkt")"
ask shared "alter schema geo rename to other"
is "roles: its schema has another name" t "$(ask shared "set search_path = other" "select 'point(1 2)'::wkt = 'POINT(1 2)'")"
echo "roles: as expected"
[ "$version" -lt 140000 ] || . "$here/tests/tenant.sh"
. "$here/tests/hostile.sh"
[ -z "${SANITIZED:-}" ] || is "sanitizers: errors" "" "$(grep -E 'Sanitizer|runtime error|terminated by signal' "$dir/base/log")"
[ $status = 0 ] && echo "PostgreSQL $("$bin/postgres" --version | sed 's/[^0-9.]* //;s/ .*//'): all as expected"
exit $status
