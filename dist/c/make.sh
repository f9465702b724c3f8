#!/bin/sh
# make.sh FILE: writes wkt_module.c, the C of ../wasm/wkt.wasm, into that file, by wabt's wasm2c. make.sh: packs it into
# wkt_module.c.xz beside this script, for those who have no wabt, if what stands there is another.
# Its first line says which wabt made it, and of which module. What only declares stands first: WKT_MODULE_HEAD leaves the rest out.
set -eu
here=$(cd "$(dirname "$0")" && pwd)
stop() { echo "make.sh: $*" >&2; exit 1; }
command -v wasm2c > /dev/null || stop "no wasm2c: install wabt"
work=$(mktemp -d)
trap 'rm -rf "$work"' EXIT
wasm2c "$here/../wasm/wkt.wasm" -n wkt -o "$work/wkt_module.c"
# What wasm2c writes before each module goes: wasm-rt.h has what is used of it. So do the types of functions, which only a call
# of one in a table would need, the blanks at the front of each line, and the w2c_ of locals and labels.
sed -e '1,/^static bool s_module_initialized/d' -e '/^static u32 func_types/,/^}/d' -e '/^void Z_wkt_init_module/,/^}/d' -e '/^  assert(/d' \
    -e '/allocate_memory/!s/&instance->w2c_memory, \(&instance->w2c_memory, \)\{0,1\}/MEMORY, /' \
    -e 's/\([^A-Za-z0-9_]\)w2c_\([ijlpB][0-9]\)/\1\2/g' -e 's/^  *//' "$work/wkt_module.c" > "$work/code.c"
lacks() { ! grep -qE "$1" "$work/code.c" || stop "the code has $2"; }
lacks '\bf(32|64)\b|\bf(32|64)_' "floating point"
lacks 'Z_env|CALL_INDIRECT|_table' "an import or an indirect call"
lacks 'grow_memory' "a call that makes the memory larger"
{
    echo "/* wasm2c of wabt $(wasm2c --version) made this of wkt.wasm, $(sha256sum < "$here/../wasm/wkt.wasm" | cut -c 1-64). */"
    sed '/Z_wkt_init_module/d' "$work/wkt_module.h"
    echo '#ifndef WKT_MODULE_HEAD'
    cat "$work/code.c"
    echo '#endif'
} > "$work/whole.c"
if [ $# != 0 ]; then
    mv "$work/whole.c" "$1"
elif ! xzcat "$here/wkt_module.c.xz" 2> /dev/null | cmp -s - "$work/whole.c"; then
    # (Another xz might give other bytes of the same.)
    xz -9e --threads=1 -c "$work/whole.c" > "$here/wkt_module.c.xz"
fi
