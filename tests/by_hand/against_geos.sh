#!/usr/bin/env bash
# Reads the table of texts by GEOS: where a text is answered with a canonical text, GEOS has to read both as equal
# geometries, if it reads the text at all.
#
# Counted apart: rows whose text GEOS doesn't read (M, tokens without a space, spare text after the geometry, ..), and
# LINEARRING, which GEOS reads as a ring and the canonical text names as a line string. A -0 is equal to 0.
#
# It needs g++ and libgeos-dev, and is no part of the gate.
set -eu
cd "$(dirname "$0")/../.." || exit 1
dir=$(mktemp -d)
trap 'rm -rf "$dir"' EXIT

cat > "$dir/compare.cpp" <<'CPP'
#include <geos_c.h>
#include <cstdarg>
#include <iostream>
#include <string>

static void silent(const char *, ...) {}

int main()
{
    GEOSContextHandle_t geos = GEOS_init_r();
    GEOSContext_setNoticeHandler_r(geos, silent);
    GEOSContext_setErrorHandler_r(geos, silent);
    GEOSWKTReader *reader = GEOSWKTReader_create_r(geos);
    long refused = 0, unread = 0, rings = 0, equal = 0, wrong = 0;
    for (std::string row; std::getline(std::cin, row);) {
        const size_t tab = row.find('\t');
        const std::string text = row.substr(0, tab);
        const std::string canonical = tab == std::string::npos ? "" : row.substr(tab + 1);
        // A canonical text begins with a kind in capitals, and no message does.
        if (canonical.size() < 2 || canonical[1] < 'A' || canonical[1] > 'Z') {
            refused++;
            continue;
        }
        GEOSGeometry *from = GEOSWKTReader_read_r(geos, reader, text.c_str());
        if (!from) {
            unread++;
            continue;
        }
        GEOSGeometry *again = GEOSWKTReader_read_r(geos, reader, canonical.c_str());
        const bool ring = again && GEOSGeomTypeId_r(geos, from) == GEOS_LINEARRING;
        const bool same = again
            && (ring ? GEOSEquals_r(geos, from, again) == 1
                     : GEOSGeomTypeId_r(geos, from) == GEOSGeomTypeId_r(geos, again)
                           && GEOSEqualsExact_r(geos, from, again, 0) == 1);
        if (!same) {
            std::cout << "not equal: " << row << '\n';
            wrong++;
        } else if (ring) {
            rings++;
        } else {
            equal++;
        }
        if (again)
            GEOSGeom_destroy_r(geos, again);
        GEOSGeom_destroy_r(geos, from);
    }
    std::cout << equal << " equal, " << rings << " rings equal as line strings, " << unread << " texts that GEOS doesn't read, "
              << refused << " refused rows, " << wrong << " not equal\n";
    GEOSWKTReader_destroy_r(geos, reader);
    GEOS_finish_r(geos);
    return wrong != 0 || equal == 0;
}
CPP
g++ -O1 -o "$dir/compare" "$dir/compare.cpp" -lgeos_c
"$dir/compare" < crates/wkt_tables/stdin
