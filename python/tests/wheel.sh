#!/usr/bin/env bash
# wheel.sh WKT: builds the wheel of the library in the folder WKT (wkt.h, libwkt.so), with the fast module, and the one
# without it, over ctypes alone, and runs the same tests over the first, and over both where NumPy isn't. (Of the sources, over
# ctypes with NumPy, ./check python runs them.) Then the fast module under sanitizers and with assertions, libraries that
# don't suit, the stored cases of the command by `python -m wkt`, the example, the pages, mypy over the stubs, and how it is built
# (build.sh). WKT is capi/out where none is named. It needs Python 3.11 or later with its headers, one with assertions, pip, NumPy,
# pandas, Shapely, tqdm, matplotlib and mypy (tests/needs.sh): what is lacking fails.
# PYTHON names another Python.
set -eu
here=$(cd "$(dirname "$0")" && pwd)
WKT=$(cd "${1:-$here/../../capi/out}" && pwd)
python=${PYTHON:-/usr/bin/python3}
work=$(mktemp -d)
trap 'rm -rf "$work"' EXIT
export PYTHONDONTWRITEBYTECODE=1
"$python" -c 'import matplotlib, numpy, pandas, shapely, tqdm' || { echo "wheel.sh: $python lacks what it needs"; exit 1; }

# each NAME FOLDER: the tests with the package of that folder. Without the fast module those of Arrow are
# skipped; with it those alone that need sanitizers.
each() {
    local name=$1 folder=$2 skipped
    skipped='no (fast module|Dask|GDAL that lends)|only under sanitizers|the fast module isn.t tried'
    [ ! -e "$folder/wkt/_fast.abi3.so" ] || skipped='only under sanitizers|no (Dask|GDAL that lends)'
    [ ! -e "$folder/numpy.py" ] || skipped="$skipped|no (NumPy|pandas|Shapely)"
    (cd "$work" && PYTHONPATH="$folder:$here:$work/peer" "$python" -W error -m unittest -v test_wkt test_arguments \
        test_columns test_interrupts test_table_command test_pandas test_dask test_keys test_words test_dialects test_streams test_geoarrow test_pack \
        test_arrow test_arrow_shared test_arrow_lent test_geoarrow_keys test_interpreters test_producers) > "$work/said" 2>&1 || { cat "$work/said"; echo "$name: the tests fail"; exit 1; }
    ! grep "skipped '" "$work/said" | grep -vE "$skipped" || { echo "$name: a test was skipped"; exit 1; }
    echo "$name: $(grep '^Ran' "$work/said"), $(tail -n 1 "$work/said")"
}

mkdir "$work/peer"
gcc -Wall -Wextra -Werror -O1 -fPIC -shared -I"$("$python" -c 'import sysconfig; print(sysconfig.get_paths()["include"])')" \
    "$here/arrow_peer.c" -o "$work/peer/arrow_peer.so"
for fast in 1 0; do
    WKT_LIB_DIR=$WKT WKT_FAST=$fast "$python" -m pip wheel -q --no-build-isolation --no-deps --no-index -w "$work/wheels$fast" "$here/.."
    wheel=$(echo "$work/wheels$fast"/*.whl)
    "$python" -m pip install -q --root-user-action=ignore --no-index --no-deps --target "$work/installed$fast" "$wheel"
    [ $fast = 0 ] || "$python" -c "import sys; sys.path.insert(0, '$work/installed1'); import wkt._fast"
    [ $fast = 1 ] || ! ls "$work/installed0/wkt/"*_fast*.so 2> /dev/null || { echo "a wheel without the fast module has it"; exit 1; }
    [ $fast = 1 ] || { rm "$work/peer/arrow_peer.so" && echo 'raise ImportError("no NumPy")' > "$work/installed0/numpy.py"; }
    each "$(basename "$wheel")" "$work/installed$fast"
done
# The fast module where NumPy, and so pandas, isn't.
mkdir "$work/lean" && cp -r "$work/installed1/wkt" "$work/lean" && echo 'raise ImportError("no NumPy")' > "$work/lean/numpy.py"
each "the fast module without NumPy" "$work/lean"
PYTHON=$python "$here/sanitized.sh" "$WKT/libwkt.so"

# Without a library of its own it finds the system's, and where there is none it says so.
cp -r "$work/installed0" "$work/bare" && rm "$work/bare/wkt/libwkt.so"
found() { (cd "$work" && env -u WKT_LIB "$@" PYTHONPATH="$work/bare" "$python" -c 'import wkt; print(wkt.canonical("point(1 2.0)"), wkt._library._library._name)') 2>&1; }
[[ "$(found LD_LIBRARY_PATH="$WKT")" = "POINT(1 2) libwkt.so"* ]] || { found LD_LIBRARY_PATH="$WKT"; echo "the system's library isn't found"; exit 1; }
/sbin/ldconfig -p | grep -q libwkt || found A=1 | grep -q 'ImportError: libwkt.so is missing' || { echo "a missing library isn't named"; exit 1; }
echo "the system's libwkt.so is found"
# refused WORDS VARIABLE=VALUE..: importing it is an error with these words.
refused() {
    local words=$1
    shift
    found "$@" | grep -q "^ImportError: .*$words" || { found "$@"; echo "import with $*: not refused by: $words"; exit 1; }
}
refused 'WKT_LIB names .*nothing.so, which' WKT_LIB="$work/nothing.so"
refused 'WKT_LIB_DIR names .*nothing/libwkt.so, which' WKT_LIB_DIR="$work/nothing"
echo 'const char *wkt_version(void) { return "0.9.10"; }' | gcc -shared -fPIC -x c - -o "$work/older.so"
refused 'is of version 0.9.10, and this package' WKT_LIB="$work/older.so"
echo 'const char *wkt_version(void) { return "99.0.0"; } int wkt_supported(void) { return 0; }' | gcc -shared -fPIC -x c - -o "$work/other.so"
refused 'needs another processor' WKT_LIB="$work/other.so"
echo "libraries that don't suit are refused"

export PYTHONPATH=$work/installed1
# The wheel carries the proved program. Its completions and dialects build.sh tries, where Python doesn't start it.
if [ -d "$here/../../tests/data/command" ]; then
    REST=streams "$here/../../tests/gate/command.sh" "$python" -m wkt > "$work/said" 2>&1 || { cat "$work/said"; echo "python -m wkt: other answers"; exit 1; }
    echo "python -m wkt: $(tail -n 1 "$work/said")"
fi
rm "$work/bare/wkt/_command"
(cd "$work" && ! PATH=$work PYTHONPATH="$work/bare" WKT_LIB="$WKT/libwkt.so" "$python" -m wkt --version 2>&1) | grep -q '^wkt: this package is without the program wkt' || { echo "a missing program isn't named"; exit 1; }
(cd "$work" && "$python" "$here/../examples/same_geometries.py" > said 2>&1 && [ -s same_geometries.png ]) || { cat "$work/said"; echo "the example fails"; exit 1; }
grep -q '^POINT(10.0067 53.553) * 3 * 3 ' "$work/said" || { cat "$work/said"; echo "the example: other counts"; exit 1; }
echo "the example: $(head -n 1 <(grep geometries "$work/said"))"
# example STATUS WORDS WORD..: called so, it ends so and says the words, and nothing of its insides
example() {
    local status=0
    (cd "$work" && "$python" "${@:3}") > "$work/said" 2>&1 || status=$?
    [ "$status" = "$1" ] && grep -q "$2" "$work/said" && ! grep -q Traceback "$work/said" || { cat "$work/said"; echo "the example: ${*:3}: not as it should be"; exit 1; }
}
example 0 '^usage: .*TABLE' "$here/../examples/same_geometries.py" --help
example 2 'No such file' "$here/../examples/same_geometries.py" nowhere.csv
echo 'a,b' > "$work/other.csv"
example 2 'no column geometry, but a, b' "$here/../examples/same_geometries.py" other.csv
example 1 "No module named '" -I -S "$here/../examples/same_geometries.py" --help
# The pages' sessions, as they are pasted. That of Dask over the files that it names.
"$python" "$here/pages.py" "$here/../README.md" || { echo "README.md: other answers"; exit 1; }
if "$python" -c 'import dask.dataframe' 2> /dev/null; then
    (cd "$work" && printf 'id\tgeometry\na\tPOINT(1 2)\nb\tPOINT(3 4)\nc\tPOINT(1 2) x\nd\t\n' > table-1.tsv && printf 'id\tgeometry\ne\tpoint(1.0 2)\n' > table-2.tsv &&
        "$python" "$here/pages.py" "$here/../DASK.md") || { echo "DASK.md: other answers"; exit 1; }
fi
(cd "$work" && MYPYPATH=$here/.. mypy --strict "$here/typed.py" "$here/../wkt") || { echo "mypy: the stubs are wrong"; exit 1; }
# How it is built and installed, in a clone; SKIP=build where python3-build is lacking.
case ",${SKIP:-}," in *",build,"*) ;; *) PYTHON=$python "$here/build.sh" ;; esac
