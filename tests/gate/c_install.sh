#!/usr/bin/env bash
# `make -C dist` and `make install` as a user calls them, and what is said where the library isn't there.
#
# It needs gcc, binutils, make and pkg-config; CMake, PostgreSQL's headers, and cargo, where SKIP=cmake,postgres,rust doesn't name them.
# CC=aarch64-linux-gnu-gcc looks at what is made for another processor, and runs none of it.
set -u
cd "$(dirname "$0")/../.." || exit 1
dir=$(mktemp -d /tmp/wkt.XXXXXX) # make takes no folder with a space, as TMPDIR may be
trap 'rm -rf "$dir"' EXIT
export LC_ALL=C
failed=0
skips() { case ",${SKIP:-}," in *",$1,"*) true ;; *) false ;; esac; }
wrong() { echo "wrong: $*"; failed=1; }
make_dist() { make -s -C dist O="$dir/out" "$@" > "$dir/said" 2>&1 || { tail -n 20 "$dir/said"; wrong "make $*"; }; }

# What is right stays as it is, and what was made of other objects is made anew.
made() { stat -c %y "$dir/out/libwkt.a" "$dir/out/libwkt.so.0" "$dir/out/wkt"; }
make_dist
before=$(made)
make_dist
[ "$(made)" = "$before" ] || wrong "make makes anew what is right"
# A release says its number, and what is built between releases its commit too; a commit makes anew what says it.
for version in 1.0.0 1.0.0-dev+another "$(dist/version.sh)"; do
    make_dist VERSION="$version"
    [ -n "${CC:-}" ] || [ "$("$dir/out/wkt" --version) $("$dir/out/wkt" -V)" = "wkt $version wkt $version" ] || wrong "wkt --version isn't $version"
done
before=$(made)
echo "of other objects" > "$dir/out/FROM"
make_dist
[ "$(made | sort - <(echo "$before") | uniq -d)" = "" ] || wrong "make leaves what was made of other objects"

# Many environments have an ARCH for their own sake.
[ "$(ARCH=amd64 dist/objects.sh)" = "$(dist/objects.sh)" ] || wrong "an ARCH in the environment names other objects"

# The prefix may come with `install` alone: then the pkg-config file has it, too.
make_dist install prefix="$dir/there"
for name in prefix libdir includedir; do
    case $name in prefix) want=$dir/there ;; libdir) want=$dir/there/lib ;; *) want=$dir/there/include ;; esac
    has=$(PKG_CONFIG_PATH=$dir/there/lib/pkgconfig pkg-config --variable=$name wkt)
    [ "$has" = "$want" ] || wrong "wkt.pc: $name is $has, not $want"
done
grep -q 'ldconfig' "$dir/said" || wrong "make install doesn't say ldconfig"
make_dist uninstall prefix="$dir/there"
left=$(find "$dir/there" ! -type d)
[ -z "$left" ] || wrong "make uninstall leaves $left"
make_dist install PREFIX=/usr DESTDIR="$dir/root" LIBDIR=/usr/lib/here
[ -e "$dir/root/usr/lib/here/libwkt.so.0" ] && [ -x "$dir/root/usr/bin/wkt" ] || wrong "DESTDIR, LIBDIR or PREFIX"
grep -qx 'prefix=/usr' "$dir/root/usr/lib/here/pkgconfig/wkt.pc" || wrong "wkt.pc names another prefix"
! grep -q 'ldconfig' "$dir/said" || wrong "ldconfig is said below DESTDIR"
# Each folder may be another.
apart=(prefix="$dir/apart" libdir="$dir/apart/l" bindir="$dir/apart/b" mandir="$dir/apart/m" includedir="$dir/apart/i")
make_dist install "${apart[@]}"
for file in l/libwkt.so.0 l/cmake/wkt/wkt-config.cmake b/wkt b/wkt-parallel m/man1/wkt.1 m/man3/wkt.3 i/wkt.h; do
    [ -e "$dir/apart/$file" ] || wrong "make install with folders apart: no $file"
done
[ "$(PKG_CONFIG_PATH=$dir/apart/l/pkgconfig pkg-config --cflags --libs wkt)" = "-I$dir/apart/i -L$dir/apart/l -lwkt " ] || wrong "wkt.pc with folders apart"
make_dist uninstall "${apart[@]}"
left=$(find "$dir/apart" ! -type d)
[ -z "$left" ] || wrong "make uninstall with folders apart leaves $left"

# In folders whose names have a space: a clone, the library, what is installed. An unquoted `rm -rf` would take `my`.
mkdir "$dir/my clone"
touch "$dir/my"
git ls-files -z -- capi include dist packaging/release/man packaging/release/completions 'LICENSE-*' | tar --null -T - -cf - | tar -C "$dir/my clone" -xf -
runs() { "$@" > "$dir/said" 2>&1 || { tail -n 20 "$dir/said"; wrong "$*"; }; }
runs make -s -C "$dir/my clone/dist" install prefix="$dir/my tools"
PKG_CONFIG_PATH=$dir/my\ tools/lib/pkgconfig pkg-config --cflags --libs wkt > "$dir/flags"
runs "$dir/my clone/capi/build.sh" "$dir/my \$library"
# As README calls it, with what an environment may have for its own sake.
runs env CDPATH=.:/ EXE=.exe capi/build.sh "$dir/library"
[ -e "$dir/library/libwkt.so" ] || wrong "no libwkt.so where the environment has an EXE"
grep -qxF "libdir=$dir/my \$library" "$dir/my \$library/wkt.pc" || wrong "wkt.pc names another folder than my \$library"
# So do the tests of the extensions.
runs env CDPATH=.:/ bash -euc '. postgres/server.sh; trap ended EXIT; library "$1"; make -s -n -C sqlite WKT_LIB_DIR="$wkt"; library; [ -e "$wkt/wkt.h" ]' \
    - "$dir/my \$library"
for flags in "$(cat "$dir/flags")" "-I'$dir/my \$library' '$dir/my \$library/libwkt.a'"; do
    eval "${CC:-cc} capi/examples/show.c $flags -o '$dir/show'" || wrong "a program isn't compiled by: $flags"
done
if ! skips rust; then
    tests/lib/cargo_home.sh "$dir/cargo" || failed=1
    cp -r rust "$dir/my crate"
    [ -n "${CC:-}" ] || runs env -u WKT_LIB_DIR PKG_CONFIG_PATH="$dir/my tools/lib/pkgconfig" CARGO_HOME="$dir/cargo" CARGO_TARGET_DIR="$dir/my target" \
        cargo build -q --offline --example show --manifest-path "$dir/my crate/Cargo.toml"
fi
# find_package of CMake, where all was moved, and in the folder of capi/build.sh
found() {
    runs cmake -S "$dir/my project" -B "$dir/my project/$1" "${@:2}" && runs cmake --build "$dir/my project/$1" && [ "$failed" = 0 ] || return
    for name in shared static; do "$dir/my project/$1/$name" | grep -q . || wrong "find_package: $*: $name"; done
}
if ! skips cmake && [ -z "${CC:-}" ]; then
    mkdir "$dir/my project"
    printf '%s\n' 'cmake_minimum_required(VERSION 3.10)' 'project(mine C)' 'find_package(wkt ${ASKED} CONFIG REQUIRED)' "set(source \"$PWD/capi/examples/show.c\")" \
        'add_executable(shared ${source})' 'target_link_libraries(shared wkt::wkt)' 'add_executable(static ${source})' 'target_link_libraries(static wkt::static)' \
        > "$dir/my project/CMakeLists.txt"
    mv "$dir/my tools" "$dir/my moved tools"
    found moved -DASKED=1.0 -DCMAKE_PREFIX_PATH="$dir/my moved tools"
    readelf -d "$dir/my project/moved/shared" | grep -q 'NEEDED.*libwkt.so.0' || wrong "find_package: wkt::wkt isn't the shared library"
    found built -Dwkt_DIR="$dir/my \$library"
    ! cmake -S "$dir/my project" -B "$dir/my project/later" -DASKED=2 -DCMAKE_PREFIX_PATH="$dir/my moved tools" > "$dir/said" 2>&1 && grep -q 'version: 1.0.0' "$dir/said" || wrong "find_package: version 2 is found"
    mv "$dir/my moved tools" "$dir/my tools"
fi
runs make -s -C "$dir/my clone/dist" uninstall prefix="$dir/my tools"
left=$(find "$dir/my tools" ! -type d)
[ -z "$left" ] || wrong "make uninstall leaves $left"
runs make -s -C "$dir/my clone/dist" install DESTDIR="$dir/my root" PREFIX=/usr
[ -x "$dir/my root/usr/bin/wkt" ] || wrong "DESTDIR with a space"
for goal in clean all; do
    ! make -C dist $goal O="$dir/my out" > "$dir/said" 2>&1 && grep -q 'make takes no folder whose name' "$dir/said" || wrong "make takes O with a space"
done
[ -e "$dir/my" ] && [ ! -e "$dir/my out" ] || wrong "make goes by a cut path"

# They run on glibc 2.17 and later, look all their names up before they begin, and write no table of addresses later.
for file in libwkt.so.0 wkt wktline wktstream; do
    newest=$(readelf -W --version-info "$dir/out/$file" | grep -o 'GLIBC_[0-9.]*' | sort -u -V | tail -n 1)
    [ "$(printf '%s\n' GLIBC_2.17 "$newest" | sort -V | tail -n 1)" = GLIBC_2.17 ] || wrong "$file needs $newest"
    readelf -W -d "$dir/out/$file" | grep -q 'BIND_NOW' || wrong "$file isn't linked with -z now"
    readelf -W -l "$dir/out/$file" | grep -q 'GNU_RELRO' || wrong "$file isn't linked with -z relro"
done

# Programs without a shared library, which a linker makes of the static ones.
make_dist O="$dir/static" LDFLAGS=-static
! readelf -W -l "$dir/static/wkt" | grep -q INTERP || wrong "LDFLAGS=-static: wkt needs shared libraries"
if [ -z "${CC:-}" ]; then
    [ "$(echo 'point ( 1 2.50 )' | "$dir/static/wkt" canon)" = 'POINT(1 2.5)' ] || wrong "LDFLAGS=-static: wkt"
    tests/gate/parallel.sh "$dir/out" || failed=1
fi

# Where the library isn't there, or can't be made, the error names what makes it.
says() {
    local words=$1
    shift
    ! "$@" > "$dir/said" 2>&1 && grep -q "$words" "$dir/said" || { tail -n 5 "$dir/said"; wrong "$* doesn't say: $words"; }
}
cp -r sqlite postgres "$dir"
rm -f "$dir"/{sqlite,postgres}/*.{o,so}
for folder in sqlite postgres; do
    ! skips $folder || continue
    says 'capi/build.sh in a clone of wkt makes it' make -C "$dir/$folder" WKT_LIB_DIR=/nowhere
    says 'capi/build.sh in a clone of wkt makes it' env PKG_CONFIG_LIBDIR=/nowhere make -C "$dir/$folder"
done
says 'install gcc.*then run capi/build.sh again' env CC=nowhere-gcc capi/build.sh "$dir/none"
printf '#!/bin/sh\ncase "$*" in *-dM*) exec gcc "$@" ;; esac\necho riscv64-linux-gnu\n' > "$dir/cc" && chmod 755 "$dir/cc"
says "C compiler true isn't supported: name gcc or clang" env CC=true capi/build.sh "$dir/none"
[[ $(CC='gcc -m32' WKT_C_LIB=dist dist/objects.sh) == x86_64_32-linux-gnu:\ portable\ C,* ]] || wrong "gcc -m32 takes the objects of 64 bits"
says 'riscv64-linux-gnu: portable C' env CC="$dir/cc" WKT_C_LIB=dist capi/build.sh "$dir/none"
says 'capi/build.sh in a clone of wkt makes it' env WKT_LIB_DIR=/nowhere python3 -c 'import sys; sys.path.insert(0, "python"); import backend; backend.build_wheel(sys.argv[1])' "$dir"
if ! skips rust; then
    says 'capi/build.sh in a clone of wkt makes it' env WKT_LIB_DIR=/nowhere CARGO_HOME="$dir/cargo" CARGO_TARGET_DIR="$dir/target" \
        cargo build -q --offline --manifest-path rust/Cargo.toml
fi
[ $failed = 0 ] && echo "make install, and the words where the library isn't there: as a user wants them"
exit $failed
