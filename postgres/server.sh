# Sourced: start_server starts a PostgreSQL server of its own, and `library` before it gives it the extension.
#
# Nothing outside a temporary folder is written, and no root is needed: the server's programs are copied there, and find
# their share folder, and so the extension, relative to themselves. The one socket is in that folder, there is no port,
# and no other user can reach the folder, since whoever connects is superuser. As root the server runs as the user
# postgres. It sets dir, bin, from, PGHOST, PGUSER and PGDATABASE. When the shell ends the server is stopped, and its
# folder and those that the caller put into `removed` are removed; what it put into `server_flags` are flags of the server.
# Run psql as "$bin/psql", the client's other programs as "$from/pg_dump". SANITIZED=yes builds the extension with ASan and UBSan,
# which end the server's process at an error, and write it into the server's log.
unset CDPATH # with which `cd` says where it went
removed=() server_flags=() under=()
ended() {
    [ -z "${started:-}" ] || as "$bin/pg_ctl" -D "$dir/base/data" -m immediate stop > /dev/null
    rm -rf "${removed[@]}"
}

# The folder of wkt.h and libwkt.a: the argument, or WKT_LIB_DIR, or capi/out.
library() {
    wkt=${1:-${WKT_LIB_DIR:-$(dirname "${BASH_SOURCE[0]}")/../capi/out}}
    [ -f "$wkt/libwkt.a" ] || "$(dirname "${BASH_SOURCE[0]}")/../capi/build.sh" "$wkt" || { echo "no libwkt.a in $wkt: capi/build.sh makes it"; exit 1; }
    wkt=$(cd "$wkt" && pwd)
    # make takes no folder whose name has a space or the like, so it gets a link to that.
    case $wkt in
        *[!A-Za-z0-9._/+@=,-]*)
            removed+=("$(mktemp -d /tmp/wkt.XXXXXX)")
            chmod 755 "${removed[-1]}"
            ln -s "$wkt" "${removed[-1]}/library"
            wkt=${removed[-1]}/library
            ;;
    esac
}

as() { "$@"; }
if [ "$(id -u)" = 0 ]; then
    as() { setpriv --reuid postgres --regid postgres --clear-groups "$@"; }
fi

# Where a server is; the status is 1 where there is none.
find_server() {
    config=${PG_CONFIG:-$(command -v pg_config || ls /usr/lib/postgresql/*/bin/pg_config 2> /dev/null | tail -n 1)}
    [ -n "$config" ] || return 1
    from=$("$config" --bindir) share=$("$config" --sharedir) lib=$("$config" --pkglibdir)
    [ -x "$from/initdb" ]
}

# The server's folders below $dir, at their own paths.
copy_server() {
    local it
    mkdir -p "$bin" "$dir$share/extension" "$dir$lib" "$dir/work" "$dir/base"
    cp "$from"/{initdb,postgres,pg_ctl,psql} "$bin/"
    for it in "$share"/*; do [ "$it" = "$share/extension" ] || ln -s "$it" "$dir$share/"; done
    for it in "$share"/extension/*; do ln -s "$it" "$dir$share/extension/"; done
    for it in "$lib"/*; do ln -s "$it" "$dir$lib/"; done
}

# The extension over the library in $wkt, among those folders; none that is installed.
build_extension() {
    rm -f "$dir$lib/wkt.so" "$dir$share"/extension/wkt{,_postgis}{.control,--*.sql}
    [ -f "$("$config" --pgxs)" ] || { echo "no headers of the PostgreSQL server: not run"; exit "${LACKING:-1}"; }
    cp -r "$(dirname "${BASH_SOURCE[0]}")"/* "$dir/work"
    make -s -C "$dir/work" PG_CONFIG="$config" WKT_LIB_DIR="$wkt" PG_CFLAGS="-Wall -Wextra -Wno-unused-parameter -Wno-sign-compare -Werror ${CFLAGS_MORE:-}" > "$dir/make.log" 2>&1 ||
        { cat "$dir/make.log"; exit 1; }
    cp "$dir/work/wkt.so" "$dir$lib/"
    cp "$dir"/work/*.control "$dir"/work/wkt*--*.sql "$dir$share/extension/"
}

# ASan's library has to be loaded first. With it the server would wait for ever as it looks for translations.
sanitize() {
    echo 'char *bindtextdomain(const char *of, const char *from) { return of ? (char *)from : 0; }' | gcc -fPIC -shared -x c - -o "$dir/no_translations.so"
    under=(env LD_PRELOAD="$(gcc -print-file-name=libasan.so) $(gcc -print-file-name=libubsan.so) $dir/no_translations.so"
        ASAN_OPTIONS=detect_leaks=0:quarantine_size_mb=8)
    CFLAGS_MORE="-g -O1 -fsanitize=address,undefined -fno-sanitize-recover=all"
}

start_server() {
    find_server || { echo "no PostgreSQL server: not run"; exit "${LACKING:-1}"; }
    # A short name: the path of a socket has at most 107 bytes. mktemp gives it mode 0700.
    dir=$(mktemp -d /tmp/wktpg.XXXXXX)
    removed+=("$dir")
    trap ended EXIT
    bin=$dir$from
    copy_server
    [ -z "${SANITIZED:-}" ] || sanitize
    [ -z "${wkt:-}" ] || build_extension
    [ "$(id -u)" != 0 ] || chown -R postgres "$dir"
    export PGHOST=$dir/base PGUSER=wkt PGDATABASE=postgres
    cd "$dir/base" || exit 1
    as "$bin/initdb" -D data -A trust -U wkt -E UTF8 --locale C.UTF-8 --no-sync > init.log 2>&1 || { cat init.log; exit 1; }
    as "${under[@]}" "$bin/pg_ctl" -D data -w -o "-k $PGHOST -h '' -F ${server_flags[*]}" -l log start > /dev/null || { cat log; exit 1; }
    started=yes
}

# test_server [FOLDER]: a server over the library in that folder, and its answers compared: `status` is 1 once one is wrong.
test_server() {
    library "${1:-}"
    status=0
    start_server
}
# ask DATABASE SQL..: what the statements answer
ask() {
    local base=$1 sql said=()
    shift
    for sql in "$@"; do said+=(-c "$sql"); done
    "$bin/psql" -X -q -At -v ON_ERROR_STOP=1 -d "$base" "${said[@]}"
}
wrong() {
    echo "wrong: $*"
    # shellcheck disable=SC2034 # the script ends with it
    status=1
}
# is NAME EXPECTED ANSWER
is() {
    [ "$2" = "$3" ] || wrong "$1: $3, not $2"
}
# fails DATABASE SQL ERROR: the statement's error has these words
fails() {
    local said
    if said=$(ask "$1" "$2" 2>&1); then wrong "$2: no error"; else [[ $said == *"$3"* ]] || wrong "$2: $said"; fi
}
