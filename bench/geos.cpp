// The same program over GEOS: each line of standard input is answered with the text of the geometry that it begins
// with, or with `refused`.
//
// Trailing zeros are cut, and at most DECIMALS digits after the point are written (the first argument; six if there is
// none), so that the answers are those of the other two programs where GEOS reads the same grammar.
#include <geos_c.h>

#include <cstdarg>
#include <cstdlib>
#include <cstring>
#include <iostream>
#include <iterator>
#include <string>

static void silent(const char *, ...) {}

int main(int argc, char **argv) {
    GEOSContextHandle_t geos = GEOS_init_r();
    GEOSContext_setNoticeHandler_r(geos, silent);
    GEOSContext_setErrorHandler_r(geos, silent);
    GEOSWKTReader *reader = GEOSWKTReader_create_r(geos);
    GEOSWKTWriter *writer = GEOSWKTWriter_create_r(geos);
    GEOSWKTWriter_setTrim_r(geos, writer, 1);
    GEOSWKTWriter_setRoundingPrecision_r(geos, writer, argc > 1 ? std::atoi(argv[1]) : 6);
    GEOSWKTWriter_setOutputDimension_r(geos, writer, 3);
    std::ios::sync_with_stdio(false);
    const std::string input((std::istreambuf_iterator<char>(std::cin)), {});
    std::string out;
    for (size_t start = 0; start < input.size();) {
        size_t end = input.find('\n', start);
        if (end == std::string::npos) end = input.size();
        const std::string line = input.substr(start, end - start);
        start = end + 1;
        if (GEOSGeometry *geometry = GEOSWKTReader_read_r(geos, reader, line.c_str())) {
            char *text = GEOSWKTWriter_write_r(geos, writer, geometry);
            out += text;
            GEOSFree_r(geos, text);
            GEOSGeom_destroy_r(geos, geometry);
        } else {
            out += "refused";
        }
        out += '\n';
    }
    std::cout << out;
    GEOSWKTReader_destroy_r(geos, reader);
    GEOSWKTWriter_destroy_r(geos, writer);
    GEOS_finish_r(geos);
}
