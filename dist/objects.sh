#!/bin/sh
# objects.sh FOLDER NAME..: puts the proved objects NAME.o (wkt_c, wkt_command, wktline, wktstream) into the folder, for the
# processor that $CC (cc) compiles for, or that WKT_PROCESSOR names, and checks their sums. It needs xz or python3.
# objects.sh FOLDER wkt_module.c: puts the C of the module there, which is for any processor (c/make.sh makes it).
# objects.sh: says in a line which those are: where there are no objects for the system, portable C.
# Where WKT_C_LIB names an archive that the prover left, wkt_c is that one's. WKT_C_LIB=portable asks for portable C.
set -eu
here=$(cd "$(dirname "$0")" && pwd)
archive=${WKT_C_LIB:-}
case $archive in dist | portable) archive= ;; esac
stop() { echo "dist: $*" >&2; exit 1; }
# unpacked FILE.xz: what it holds
unpacked() {
    if command -v xzcat > /dev/null; then
        xzcat "$1"
    elif command -v python3 > /dev/null; then
        python3 -c 'import lzma, shutil, sys; shutil.copyfileobj(lzma.open(sys.argv[1]), sys.stdout.buffer)' "$1"
    else
        stop "neither xz nor python3 is there, to unpack $1: install xz-utils"
    fi
}
sum_of() { sha256sum < "$1" | cut -c 1-64; }

if [ "$*" = "${1:-} wkt_module.c" ]; then
    if [ -e "$here/c/wkt_module.c.xz" ]; then unpacked "$here/c/wkt_module.c.xz" > "$1/wkt_module.c"; else "$here/c/make.sh" "$1/wkt_module.c"; fi
    # A system without sha256sum has the word of the release's sums.
    ! command -v sha256sum > /dev/null || sed q "$1/wkt_module.c" | grep -q "$(sum_of "$here/wasm/wkt.wasm")" ||
        stop "c/wkt_module.c.xz is of another module than wasm/wkt.wasm: c/make.sh makes it"
    exit
fi
machine=${WKT_PROCESSOR:+$WKT_PROCESSOR-linux}
if [ -z "$machine" ]; then
    compiler=${CC:-cc}
    # CC may have words behind its name.
    command -v "${compiler%% *}" > /dev/null || stop "there is no C compiler $compiler: install gcc, or name one by CC"
    macros=$(echo | $compiler -dM -E -x c - 2> /dev/null && echo && $compiler -dumpmachine 2> /dev/null) || macros=
    case $macros in *"__GNUC__ "*) ;; *) stop "the C compiler $compiler isn't supported: name gcc or clang by CC" ;; esac
    machine=${macros##*
}
    # One such as `gcc -m32` names the processor of its 64 bits.
    case $macros in *"__SIZEOF_POINTER__ 4"*) machine=${machine%%-*}_32-${machine#*-} ;; esac
fi
processor=${machine%%-*}
fits() { [ -e "$here/$processor/PROVENANCE" ] && [ "$machine" != "${machine#*linux}" ]; }
if [ $# = 0 ]; then
    if [ -n "$archive" ]; then
        echo "$machine: proved here: $(sum_of "$archive")"
    elif [ "${WKT_C_LIB:-}" != portable ] && fits; then
        echo "$machine: dist, of commit $(sed -n 's/^commit  *//p' "$here/$processor/PROVENANCE"): $(sed -n 's/  wkt_c\.o$//p' "$here/$processor/PROVENANCE")"
    else
        echo "$machine: portable C, of the module $(sed -n 's/  wkt\.wasm$//p' "$here/wasm/PROVENANCE")"
    fi
    exit
fi
[ -n "$archive" ] && [ "$*" = "$1 wkt_c" ] || fits ||
    stop "no objects for $machine; there are those for Linux on $(cd "$here" && echo */wkt_c.o.xz | sed 's,/wkt_c.o.xz,,g')." \
        "With the prover (rt), dist/refresh.sh $processor proves and builds them"
to=$1
shift
for name in "$@"; do
    if [ "$name" = wkt_c ] && [ -n "$archive" ]; then
        "${AR:-ar}" p "$archive" > "$to/$name.o"
        continue
    fi
    unpacked "$here/$processor/$name.o.xz" > "$to/$name.o"
    sum=$(sum_of "$to/$name.o")
    grep -qx "$sum  $name.o" "$here/$processor/PROVENANCE" || stop "$processor/$name.o has another sum than in PROVENANCE"
done
