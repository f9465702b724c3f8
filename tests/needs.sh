#!/usr/bin/env bash
# Installs what is needed beyond the toolchain, as Debian packages. Where all of it is there it does nothing and says nothing.
#
# needs.sh [NAME..]           as root says what it installs, and installs it. Another user gets the line that does, and status 3
# needs.sh lacking [NAME..]   installs nothing, and prints the names of what is missing, as SKIP takes them
# needs.sh line [NAME..]      installs nothing, and prints the line that does, if anything is missing
#
# The names are those of `packages` below; without one it is all of them. `compile` is what ./run needs.
set -u

# there NAME: whether this machine has it
there() {
    case $1 in
        compile) compiler && command -v make && { command -v xz || command -v python3; } ;;
        c) command -v gcc && command -v ar && command -v make && command -v pkg-config ;;
        c++) command -v g++ ;;
        cmake) command -v cmake ;;
        valgrind) command -v valgrind ;;
        rust) command -v cargo && [ -x /usr/bin/cargo ] && ls -d /usr/share/cargo/registry/{geo-types,cc}-* ;;
        python) command -v python3 ;;
        numpy | pandas | shapely | mypy | tqdm | matplotlib | build) module "$1" ;;
        dask) module dask && module distributed ;;
        dbg) command -v /usr/bin/python3-dbg ;;
        wheel) module setuptools && module wheel && module pip && module venv && [ -e "$(headers)/Python.h" ] ;;
        postgres) command -v pg_config && [ -e "$(pg_config --includedir-server)/postgres.h" ] && [ -x "$(pg_config --bindir)/initdb" ] ;;
        sqlite) command -v sqlite3 && [ -e /usr/include/sqlite3.h ] ;;
        javascript) command -v node ;;
        binaryen) command -v wasm-opt ;;
        types) command -v tsc ;;
        esbuild | webpack) command -v "$1" ;;
        rollup) command -v rollup && [ -e /usr/share/nodejs/@rollup/plugin-node-resolve ] ;;
        wabt) command -v wasm2c ;;
        page) command -v chromium && command -v chromedriver && module selenium ;;
        fuzz) command -v clang && command -v ld.lld ;;
        flake8 | shellcheck | clang-format) command -v "$1" ;;
        shown) perl -e 'exit(chr(0x3164) !~ /\p{Default_Ignorable_Code_Point}/)' ;;
    esac > /dev/null 2>&1
}
# compiler: a C compiler, with the headers of the C library
compiler() {
    local it
    for it in "${CC:-cc}" gcc clang; do
        # shellcheck disable=SC2086 # words
        echo '#include <stdio.h>' | $it -E - && return
    done
    return 1
}
# module NAME: the system's Python has it, for which the packages are
module() { /usr/bin/python3 -c "import importlib.util, sys; sys.exit(not importlib.util.find_spec('$1'))"; }
headers() { /usr/bin/python3 -c 'import sysconfig; print(sysconfig.get_paths()["include"])'; }

packages=(
    "compile gcc libc6-dev make xz-utils"
    "c gcc libc6-dev binutils make pkg-config"
    "c++ g++"
    "cmake cmake"
    "valgrind valgrind"
    "rust cargo librust-geo-types-dev librust-cc-dev"
    "python python3"
    "numpy python3-numpy"
    "pandas python3-pandas"
    "shapely python3-shapely"
    "mypy mypy"
    "tqdm python3-tqdm"
    "matplotlib python3-matplotlib"
    "build python3-build git"
    "dask python3-dask python3-distributed"
    "dbg python3-dbg"
    "wheel python3-setuptools python3-wheel python3-pip python3-venv python3-dev"
    "postgres postgresql postgresql-server-dev-all"
    "sqlite sqlite3 libsqlite3-dev"
    "javascript nodejs"
    "binaryen binaryen"
    "wabt wabt"
    "types node-typescript"
    "esbuild esbuild"
    "rollup rollup node-rollup-plugin-node-resolve"
    "webpack webpack"
    "page chromium chromium-driver python3-selenium"
    "fuzz clang lld libclang-rt-dev"
    "flake8 flake8"
    "shellcheck shellcheck"
    "clang-format clang-format"
    "shown perl"
)

asked=
case ${1:-} in lacking | line) asked=$1 && shift ;; esac
lacking=() wanted=()
for row in "${packages[@]}"; do
    read -r name rest <<< "$row"
    case " $* " in "  " | *" $name "*) ;; *) continue ;; esac
    there "$name" && continue
    lacking+=("$name")
    read -ra rest <<< "$rest"
    wanted+=("${rest[@]}")
done
mapfile -t wanted < <(printf '%s\n' "${wanted[@]}" | awk '!seen[$0]++')
sudo=
[ "$(id -u)" = 0 ] || sudo='sudo '
line="${sudo}apt install ${wanted[*]}"
# An empty system has no lists of packages yet.
compgen -G '/var/lib/apt/lists/*_Packages*' > /dev/null || line="${sudo}apt update && $line"
command -v apt-get > /dev/null || line="install what Debian has in: ${wanted[*]}"
if [ "$asked" = lacking ]; then
    (IFS=,; echo "${lacking[*]}")
    exit 0
fi
[ "${#lacking[@]}" != 0 ] || exit 0
if [ "$asked" = line ]; then
    echo "$line"
    exit 0
fi

if [ -n "$sudo" ] || ! command -v apt-get > /dev/null; then
    echo "Some packages are missing, and nothing was installed. This installs them:" >&2
    echo "    $line" >&2
    exit 3
fi
echo "Some packages are missing, and are installed now: $line" >&2
log=$(mktemp)
trap 'rm -f "$log"' EXIT
install() { DEBIAN_FRONTEND=noninteractive apt-get install -qy --no-install-recommends "$@" >> "$log" 2>&1; }
apt-get update -q > "$log" 2>&1
install "${wanted[@]}" && exit
# What can't be installed doesn't keep the rest out: node-typescript, say, takes no Node but Debian's.
failed=()
for row in "${packages[@]}"; do
    read -r name rest <<< "$row"
    case " ${lacking[*]} " in *" $name "*) ;; *) continue ;; esac
    there "$name" && continue
    read -ra rest <<< "$rest"
    install "${rest[@]}" || failed+=("${rest[@]}")
done
[ "${#failed[@]}" != 0 ] || exit 0
tail -n 5 "$log"
echo "these Debian packages can't be installed here: ${failed[*]}" >&2
exit 3
