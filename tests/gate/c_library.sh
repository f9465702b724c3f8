#!/usr/bin/env bash
# Builds the library for C in capi/out.
#
# It needs crates/wkt_c proved: the gate runs it on what rt ci has just proved; alone, run rt check in crates/wkt_c first,
# or name a library that is built already by WKT_C_LIB. Where all stands as it was, nothing is proved again.
set -u
cd "$(dirname "$0")/../.." || exit 1
if [ -z "${WKT_C_LIB:-}" ]; then
    tests/lib/lib_for_c.py 2> /dev/null || (cd crates/wkt_c && rt lib > /dev/null) || { echo "wkt_c: rt lib fails"; exit 1; }
fi
capi/build.sh
