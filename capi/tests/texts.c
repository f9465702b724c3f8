/* Calls over one text, two, and lines. */
#include "calls.h"

static wkt_status canonical(const char *text, uint32_t places, size_t room) {
    memset(out, '#', ROOM);
    needed = end_at = 99;
    return wkt_canonical(BYTES(text), places, out, room, &needed, &end_at);
}

static int not_set(void) { return needed == 99 && end_at == 99; }

/* A text of that many bytes, which begins with POINT(1 2) and has nothing but white space behind it. */
static const char *padded(size_t size) {
    static char text[ROOM];
    memset(text, ' ', sizeof text);
    memcpy(text, "POINT(1 2)", 10);
    text[size] = 0;
    return text;
}

/* Texts of each length up to 230 whose last byte is, or isn't, of UTF-8: behind the geometry, and in its last number. */
static void last_bytes(void) {
    static char text[ROOM];
    size_t size;
    for (size = 13; size < 230; size++) {
        memset(text, ' ', sizeof text);
        memcpy(text, "POINT(1 2)", 10);
        text[size] = 0;
        memcpy(text + size - 2, "\xc3\xa9", 2);
        CHECK(canonical(text, 6, ROOM) == WKT_OK && holds("POINT(1 2)") && end_at == 10);
        text[size - 1] = 'a';
        CHECK(canonical(text, 6, ROOM) == WKT_NOT_UTF8 && untouched() && not_set());
        memset(text, ' ', size);
        memcpy(text, "POINT(1", 7);
        memcpy(text + size - 4, "2.50", 4);
        CHECK(canonical(text, 6, ROOM) == 7 && untouched() && not_set());
        text[size - 1] = ')';
        CHECK(canonical(text, 6, ROOM) == WKT_OK && holds("POINT(1 2.5)") && end_at == size);
    }
}

/* No answer is longer than the header says: an empty geometry of one letter a name, a row of points without points. */
static void bounds(void) {
    static const char *const texts[] = {"POINT(1 2)",
                                        "POINT EMPTY",
                                        "MULTIPOINT(1 2,3 4,5 6,7 8,9 0)",
                                        "MULTIPOINT(1 2,EMPTY,3 4)",
                                        "GEOMETRYCOLLECTION EMPTY",
                                        "POLYGON(EMPTY)",
                                        "MULTIPOLYGON((EMPTY))",
                                        "POINT(-.5 +.5)",
                                        "POINT(.1 .2)"};
    size_t i;
    for (i = 0; i < sizeof texts / sizeof *texts; i++) {
        size_t size = strlen(texts[i]);
        CHECK(canonical(texts[i], 6, 2 * size + 65) == WKT_OK && needed <= 2 * size + 1);
        CHECK(needed == 0 || canonical(texts[i], 6, needed - 1) == WKT_TOO_SMALL);
        CHECK(needed > 0 && untouched());
    }
}

/* Texts of up to 200 bytes are answered with no memory, and all are the same. */
static void short_texts(void) {
    size_t size;
    for (size = 10; size < 220; size++) {
        allocations = 0;
        CHECK(canonical(padded(size), 6, ROOM) == WKT_OK && holds("POINT(1 2)") && end_at == 10);
        CHECK(PORTABLE || (allocations == 0) == (size <= 200));
        CHECK(canonical(padded(size), 6 | WKT_WHOLE, ROOM) == WKT_OK && holds("POINT(1 2)") && end_at == 10);
    }
}

/* A whole text is asked for. */
static void whole_texts(void) {
    CHECK(canonical("POINT(1 2)", 6 | WKT_WHOLE, ROOM) == WKT_OK && holds("POINT(1 2)") && end_at == 10);
    CHECK(canonical("\n POINT(1 2) \t\r\n", 6 | WKT_WHOLE, ROOM) == WKT_OK && holds("POINT(1 2)") && end_at == 12);
    CHECK(canonical("POINT(1 2) x", 6 | WKT_WHOLE, ROOM) == WKT_NOT_WHOLE && untouched() && needed == 99 &&
          end_at == 10);
    CHECK(canonical("POINT(1 2) x", 6 | WKT_WHOLE, 2) == WKT_NOT_WHOLE && untouched() && needed == 99 && end_at == 10);
    CHECK(canonical("POINT(1 2)\n\nPOINT(3 4)", 6 | WKT_WHOLE, ROOM) == WKT_NOT_WHOLE && end_at == 10);
    CHECK(canonical("POINT(1 2 x", 6 | WKT_WHOLE, ROOM) == 7 && untouched() && not_set());
    CHECK(canonical("POINT(1 2)", 6 | WKT_WHOLE, 9) == WKT_TOO_SMALL && untouched() && needed == 10 && end_at == 10);
    CHECK(canonical("POINT(1 2)", 18 | WKT_WHOLE, ROOM) == WKT_OK);
    CHECK(canonical("POINT(1 2)", 36 | WKT_WHOLE, ROOM) == WKT_OK);
    CHECK(canonical("POINT(1 2)", 37 | WKT_WHOLE, ROOM) == WKT_NO_PLACES && untouched() && not_set());
    CHECK(canonical("POINT(1 2)", 255, ROOM) == WKT_NO_PLACES && canonical("POINT(1 2)", 8192, ROOM) == WKT_NO_PLACES);
    CHECK(canonical("POINT(1 2)", 0xffffffffu, ROOM) == WKT_NO_PLACES);
    memset(out, '#', ROOM);
    needed = end_at = 99;
    CHECK(wkt_canonical((const uint8_t *)"POINT(1 2)\0", 11, 6, out, ROOM, &needed, &end_at) == WKT_OK && end_at == 10);
    CHECK(wkt_canonical((const uint8_t *)"POINT(1 2)\0", 11, 6 | WKT_WHOLE, out, ROOM, &needed, &end_at) ==
          WKT_NOT_WHOLE);
    CHECK(wkt_canonical((const uint8_t *)"POINT\0(1 2)", 11, 6, out, ROOM, &needed, &end_at) == 5);
}

static void canonicals(void) {
    /* A text for each message, at its number. */
    static const char *const refused[] = {"",
                                          "1",
                                          "\xc2\xbe",
                                          "X",
                                          "POINT X",
                                          "POINT",
                                          "POINT 1",
                                          "POINT(1",
                                          "POINT(X)",
                                          "POINT(1 X)",
                                          "POINT Z(1 2 X)",
                                          "POINT M(1 2 X)",
                                          "GEOMETRYCOLLECTION(1)",
                                          "POINT(2 1.5)"};
    uint32_t places;
    size_t i;
    CHECK(canonical("point ( 10 -20.50 ) more", 6, ROOM) == WKT_OK && holds("POINT(10 -20.5)") && end_at == 19);
    CHECK(canonical("POINT(2 1.0000005)", 6, ROOM) == WKT_BAD_NUMBER && untouched());
    CHECK(canonical("POINT(1.0000005 2)", 7, ROOM) == WKT_OK && holds("POINT(1.0000005 2)"));
    for (places = 0; places <= 36; places++)
        CHECK(canonical("POINT(1 2)", places, ROOM) == WKT_OK && holds("POINT(1 2)") && end_at == 10);
    CHECK(canonical("POINT(1 2)", 37, ROOM) == WKT_NO_PLACES && untouched() && not_set());
    CHECK(canonical("POINT(1 2)", 6, 9) == WKT_TOO_SMALL && untouched() && needed == 10 && end_at == 10);
    CHECK(canonical("POINT(1 2)", 6, 10) == WKT_OK && holds("POINT(1 2)"));
    CHECK(canonical("POINT(1 2)\xff", 6, ROOM) == WKT_NOT_UTF8 && untouched() && not_set());
    CHECK(canonical("\xffPOINT(1 2)", 6, ROOM) == WKT_NOT_UTF8 && untouched() && not_set());
    CHECK(canonical("POINT(1 2) \xc3\xa9", 6, ROOM) == WKT_OK && holds("POINT(1 2)") && end_at == 10);
    for (i = 1; i < sizeof refused / sizeof *refused; i++)
        CHECK(canonical(refused[i], 0, ROOM) == i && untouched() && not_set());
    CHECK(wkt_canonical(NULL, 0, 6, NULL, 0, &needed, &end_at) == 1);
    CHECK(wkt_canonical(BYTES("POINT(1 2)"), 6, NULL, 0, &needed, &end_at) == WKT_TOO_SMALL && needed == 10);
}

/* A text with a number of more places than 18, and what two calls say of it: the canonical text or the status, and the hint.
 * Python's decimal says which numbers are units of ten to the minus `places`, and which of these 127 bits hold. */
static const struct {
    const char *text;
    uint32_t places;
    const char *answer;
    uint32_t hint;
} fine[] = {
    {"POINT(0.123456789012345678901234 -00.100000000000000000000002)", 24,
     "POINT(0.123456789012345678901234 -0.100000000000000000000002)", 0},
    {"POINT(179.999999999999999999999999 -.5)", 24, "POINT(179.999999999999999999999999 -0.5)", 0},
    {"POINT(0.1234567890123456789012340 1.)", 24, "POINT(0.123456789012345678901234 1)", 0},
    {"POINT(1 0.1234567890123456789012345)", 24, NULL, WKT_HINT_PLACES},
    {"POINT(170141183460469.231731687303715884105727 -170141183460469.231731687303715884105728)", 24,
     "POINT(170141183460469.231731687303715884105727 -170141183460469.231731687303715884105728)", 0},
    {"POINT(0 170141183460469.231731687303715884105728)", 24, NULL, WKT_HINT_LARGE},
    {"POINT(0 -170141183460469.231731687303715884105729)", 24, NULL, WKT_HINT_LARGE},
    {"POINT(1000.5 2)", 35, "POINT(1000.5 2)", 0},
    {"POINT(2 1701.41183460469231731687303715884105728)", 35, NULL, WKT_HINT_LARGE},
    {"POINT(180 -0.00000000000000000000000000000000001)", 35, "POINT(180 -0.00000000000000000000000000000000001)", 0},
    {"POINT(0.000000000000000000000000000000000001 -0.999999999999999999999999999999999999)", 36,
     "POINT(0.000000000000000000000000000000000001 -0.999999999999999999999999999999999999)", 0},
    {"POINT(0.0000000000000000000000000000000000010 2)", 36, "POINT(0.000000000000000000000000000000000001 2)", 0},
    {"POINT(2 0.0000000000000000000000000000000000001)", 36, NULL, WKT_HINT_PLACES},
    {"POINT(+170.141183460469231731687303715884105727 -170.141183460469231731687303715884105728)", 36,
     "POINT(170.141183460469231731687303715884105727 -170.141183460469231731687303715884105728)", 0},
    {"POINT(2 170.141183460469231731687303715884105728)", 36, NULL, WKT_HINT_LARGE},
    {"POINT(2 -170.141183460469231731687303715884105729)", 36, NULL, WKT_HINT_LARGE},
    {"POINT(170 -170)", 36, "POINT(170 -170)", 0},
    {"POINT(2 171)", 36, NULL, WKT_HINT_FEWER},
    {"POINT(2 180)", 36, NULL, WKT_HINT_FEWER},
    {"POINT(-0.000000000000000000000000000000000000 00170.0)", 36, "POINT(0 170)", 0},
};

static void fine_places(void) {
    size_t i;
    for (i = 0; i < sizeof fine / sizeof *fine; i++) {
        uint32_t hint = 0;
        wkt_status status = canonical(fine[i].text, fine[i].places, ROOM);
        if (fine[i].answer)
            CHECK(status == WKT_OK && holds(fine[i].answer) && end_at == strlen(fine[i].text));
        else
            CHECK(status == WKT_BAD_NUMBER && untouched() && not_set());
        status = wkt_hint(BYTES(fine[i].text), fine[i].places, &hint);
        CHECK(status == (fine[i].answer ? WKT_ACCEPTED : WKT_OK) && hint == fine[i].hint);
    }
}

/* The same through the calls over two texts, and over lines. */
static void fine_others(void) {
    const char *input = "POINT(0.10 -0.000000000000000000000000000000000001)\nPOINT(180 0)";
    const char *answers = "POINT(0.1 -0.000000000000000000000000000000000001)\nrefused\n";
    const char *one = "POINT(0.123456789012345678901234 2)", *other = "point(+0.1234567890123456789012340 2.)";
    size_t taken = 99, written = 99;
    uint32_t same = 9;
    CHECK(wkt_same(BYTES(one), BYTES(other), 24, &same) == WKT_OK && same == 1);
    CHECK(wkt_same(BYTES(one), BYTES("POINT(0.123456789012345678901235 2)"), 36, &same) == WKT_OK && same == 0);
    CHECK(wkt_same(BYTES(one), BYTES(other), 23, &same) == 7);
    memset(out, '#', ROOM);
    CHECK(wkt_lines(BYTES(input), 36, out, ROOM, &needed) == WKT_OK && holds(answers));
    memset(out, '#', ROOM);
    CHECK(wkt_lines_some(BYTES(input), 36, 1, out, ROOM, &taken, &written) == WKT_OK && taken == strlen(input));
    CHECK(written == strlen(answers) && !memcmp(out, answers, written));
}

static void comparisons(void) {
    uint32_t same = 9;
    size_t end = 99, other = 99;
    CHECK(wkt_same(BYTES("POINT(1 2)"), BYTES("point (1.0 +2) x"), 6, &same) == WKT_OK && same == 1);
    CHECK(wkt_same(BYTES("POINT(1 2)"), BYTES("POINT(2 1)"), 6, &same) == WKT_OK && same == 0);
    same = 9;
    CHECK(wkt_same(BYTES("POINT(1 2)"), BYTES("PINT(2 1)"), 6, &same) == 3 && same == 9);
    CHECK(wkt_same(BYTES("\xff"), BYTES("POINT(2 1)"), 6, &same) == WKT_NOT_UTF8 && same == 9);
    CHECK(wkt_same(BYTES("POINT(2 1)"), BYTES("POINT(2 1)\xff"), 6, &same) == WKT_NOT_UTF8 && same == 9);
    CHECK(wkt_same(BYTES("POINT(1 2)"), BYTES("POINT(1 2)"), 37, &same) == WKT_NO_PLACES && same == 9);
    CHECK(wkt_same(BYTES("POINT(1 2)"), BYTES("POINT(1 2) x"), 6 | WKT_WHOLE, &same) == WKT_NOT_WHOLE && same == 9);
    CHECK(wkt_same(BYTES("POINT(1 2)x"), BYTES("POINT(1 2)"), 6 | WKT_WHOLE, &same) == WKT_NOT_WHOLE && same == 9);
    CHECK(wkt_same(BYTES("POINT(1 2)\n"), BYTES("POINT (1 2)"), 6 | WKT_WHOLE, &same) == WKT_OK && same == 1);
    CHECK(wkt_same_ends(BYTES("POINT(1 2) x"), BYTES("point (1.0 +2)"), 6, &same, &end, &other) == WKT_OK);
    CHECK(same == 1 && end == 10 && other == 14);
    same = 9, end = other = 99;
    CHECK(wkt_same_ends(BYTES("POINT(1 2)"), BYTES("PINT(2 1)"), 6, &same, &end, &other) == 3);
    CHECK(same == 9 && end == 99 && other == 99);
    CHECK(wkt_same_ends(BYTES("POINT(1 2)"), BYTES("POINT(1 20) x"), 6 | WKT_WHOLE, &same, &end, &other) ==
          WKT_NOT_WHOLE);
    CHECK(same == 9 && end == 10 && other == 11);
    allocations = 0;
    CHECK(wkt_same(BYTES(padded(200)), BYTES(padded(200)), 6, &same) == WKT_OK && same == 1 && allocations == 0);
    CHECK(wkt_same(BYTES(padded(201)), BYTES("POINT(1 3)"), 6, &same) == WKT_OK && same == 0);
}

/* Which of two statuses is returned, also where blanks before the texts make them long. */
static void orders(void) {
    static const struct {
        const char *one, *other;
        uint32_t places;
        wkt_status same;
    } rows[] = {{"PINT(2 1)", "\xff", 37 | WKT_WHOLE, WKT_NO_PLACES},
                {"PINT(2 1)", "\xff", 6 | WKT_WHOLE, WKT_NOT_UTF8},
                {"\xff", "PINT(2 1)", 6, WKT_NOT_UTF8},
                {"PINT(2 1)", "POINT(1 2 x", 6, 3},
                {"POINT(1 2 x", "PINT(2 1)", 6, 7},
                {"POINT(1 2) x", "PINT(2 1)", 6 | WKT_WHOLE, 3},
                {"POINT(1 2) x", "\xff", 6 | WKT_WHOLE, WKT_NOT_UTF8},
                {"POINT(1 2)", "POINT(1 2) x", 6 | WKT_WHOLE, WKT_NOT_WHOLE}};
    static char one[ROOM], other[ROOM];
    size_t i, blanks;
    for (i = 0; i < sizeof rows / sizeof *rows; i++)
        for (blanks = 0; blanks <= 220; blanks += 55) {
            uint32_t same = 9;
            sprintf(one, "%*s%s", (int)(blanks / 2), "", rows[i].one);
            sprintf(other, "%*s%s", (int)blanks, "", rows[i].other);
            CHECK(wkt_same(BYTES(one), BYTES(other), rows[i].places, &same) == rows[i].same && same == 9);
        }
}

/* Where a text is refused, and what could come next; the message is the status of the other calls. */
static void explanations(void) {
    static const struct {
        const char *text;
        uint32_t places, start, stop, expected;
    } refused[] = {{"", 6, 0, 0, 0},
                   {" X(", 6, 1, 2, 0},
                   {"GEOMETRYCOLLECTION(1)", 6, 19, 20, 1},
                   {"POINT", 6, 5, 5, 2},
                   {"POINT Z 1", 6, 8, 9, 3},
                   {"MULTIPOINT(,", 6, 11, 12, 4},
                   {"POINT(X)", 6, 6, 7, 5},
                   {"POINT(1)", 6, 7, 8, 6},
                   {"POINT Z(1 2)", 6, 11, 12, 7},
                   {"POINT M(1 2)", 6, 11, 12, 8},
                   {"LINESTRING(1 2", 6, 14, 14, 9},
                   {"POINT(1 2", 6, 9, 9, 10},
                   {"POINT(1.25 2)", 1, 6, 10, 5},
                   {"POINT(1e3 2)", 6, 6, 9, 5}};
    uint32_t message, expected;
    size_t start, stop, i;
    for (i = 0; i < sizeof refused / sizeof *refused; i++) {
        CHECK(wkt_explain(BYTES(refused[i].text), refused[i].places, &message, &start, &stop, &expected) == WKT_OK);
        CHECK(start == refused[i].start && stop == refused[i].stop && expected == refused[i].expected);
        CHECK(message == canonical(refused[i].text, refused[i].places, ROOM));
    }
    message = expected = 77, start = stop = 99;
    CHECK(wkt_explain(BYTES("POINT(1 2) x"), 6, &message, &start, &stop, &expected) == WKT_ACCEPTED);
    CHECK(wkt_explain(BYTES("POINT(1)\xff"), 6, &message, &start, &stop, &expected) == WKT_NOT_UTF8);
    CHECK(wkt_explain(BYTES("POINT(1)"), 37, &message, &start, &stop, &expected) == WKT_NO_PLACES);
    CHECK(message == 77 && expected == 77 && start == 99 && stop == 99);
    CHECK(wkt_explain(NULL, 0, 6, &message, &start, &stop, &expected) == WKT_OK && start == 0 && stop == 0);
}

static void headers(void) {
    uint32_t kind = 9, dimension = 9;
    CHECK(wkt_infer(BYTES("multipolygon zm empty"), &kind, &dimension) == WKT_OK && kind == 5 && dimension == 3);
    CHECK(wkt_infer(BYTES("Point M(1"), &kind, &dimension) == WKT_OK && kind == 0 && dimension == 2);
    kind = dimension = 9;
    CHECK(wkt_infer(BYTES("PINT("), &kind, &dimension) == 1);
    CHECK(wkt_infer(BYTES("POINTEMPTY"), &kind, &dimension) == 2);
    CHECK(wkt_infer(BYTES("POINT Z 1"), &kind, &dimension) == 3);
    CHECK(wkt_infer(BYTES("PINT"), &kind, &dimension) == 3 && wkt_infer(BYTES("PINTEMPTY"), &kind, &dimension) == 2);
    CHECK(wkt_infer(BYTES("\xff"), &kind, &dimension) == WKT_NOT_UTF8);
    CHECK(wkt_infer(NULL, 0, &kind, &dimension) == 3 && kind == 9 && dimension == 9);
}

static void versions(void) { CHECK(!strcmp(wkt_version(), WKT_VERSION)); }

static void many_lines(void) {
    const char *input = "point(1 2.50)\nnonsense\n\nPOINT EMPTY";
    const char *answers = "POINT(1 2.5)\nrefused\nrefused\nPOINT EMPTY\n";
    memset(out, '#', ROOM);
    CHECK(wkt_lines(BYTES(input), 18, out, ROOM, &needed) == WKT_OK && holds(answers));
    memset(out, '#', ROOM);
    CHECK(wkt_lines(BYTES(input), 18, out, strlen(answers) - 1, &needed) == WKT_TOO_SMALL && untouched());
    CHECK(needed == strlen(answers));
    needed = 99;
    CHECK(wkt_lines(BYTES(input), 37, out, ROOM, &needed) == WKT_NO_PLACES && untouched() && needed == 99);
    CHECK(wkt_lines(NULL, 0, 18, NULL, 0, &needed) == WKT_OK && needed == 0);
    CHECK(wkt_lines(BYTES("POINT(1 2.5)"), 0, out, ROOM, &needed) == WKT_OK && holds("refused\n"));
}

/* The same lines in chunks, by buffers of each size, are answered as all at once. */
static void some_lines(void) {
    const char *input = "point(1 2.50)\nnonsense\n\nPOINT EMPTY\nLINESTRING(0 0, 1 1)";
    const char *answers = "POINT(1 2.5)\nrefused\nrefused\nPOINT EMPTY\nLINESTRING(0 0,1 1)\n";
    size_t in_room, out_room, taken = 99, written = 99;
    for (in_room = 21; in_room < 70; in_room++)
        for (out_room = 21; out_room < 90; out_room++) {
            size_t at = 0, n = 0, turns = 0, size = strlen(input);
            uint8_t all[ROOM], piece[ROOM];
            while (at < size && turns++ < 100) {
                size_t left = size - at < in_room ? size - at : in_room;
                memset(piece, '#', ROOM);
                CHECK(wkt_lines_some((const uint8_t *)input + at, left, 18, left == size - at, piece, out_room, &taken,
                                     &written) == WKT_OK);
                CHECK(taken > 0 && taken <= left && written <= out_room && piece[out_room] == '#');
                memcpy(all + n, piece, written);
                n += written;
                at += taken;
            }
            CHECK(n == strlen(answers) && !memcmp(all, answers, n));
        }
    taken = written = 99;
    CHECK(wkt_lines_some(BYTES("POINT(1 2)"), 18, 0, out, ROOM, &taken, &written) == WKT_OK && taken == 0 &&
          written == 0);
    CHECK(wkt_lines_some(BYTES("POINT(1 2)"), 18, 1, out, ROOM, &taken, &written) == WKT_OK && taken == 10 &&
          written == 11);
    taken = written = 99;
    CHECK(wkt_lines_some(BYTES("POINT(1 2)\n"), 18, 0, out, 10, &taken, &written) == WKT_TOO_SMALL && taken == 99 &&
          written == 99);
    CHECK(wkt_lines_some(BYTES("POINT(1 2)\n"), 18, 0, out, 11, &taken, &written) == WKT_OK && taken == 11 &&
          written == 11);
    CHECK(wkt_lines_some(BYTES("POINT(1 2)\n"), 37, 0, out, ROOM, &taken, &written) == WKT_NO_PLACES);
    CHECK(wkt_lines_some(NULL, 0, 18, 1, NULL, 0, &taken, &written) == WKT_OK && taken == 0 && written == 0);
}

/* Answers that are longer than their lines, and a line that is longer than most: memory is taken again, and more. */
static void rooms_again(void) {
    enum { MANY = 100000 };
    uint8_t *input = (uint8_t *)malloc(MANY + 12), *answers = (uint8_t *)malloc(8 * MANY);
    size_t taken = 99, written = 99, i;
    CHECK(input && answers);
    memset(input, '\n', MANY);
    allocations = 0;
    CHECK(wkt_lines(input, MANY, 18, answers, 8 * MANY, &needed) == WKT_OK && needed == 8 * MANY);
    CHECK(PORTABLE || allocations > 1);
    for (i = 0; i < MANY; i++) CHECK(!memcmp(answers + 8 * i, "refused\n", 8));
    CHECK(wkt_lines(input, MANY, 18, answers, 8 * MANY - 1, &needed) == WKT_TOO_SMALL && needed == 8 * MANY);
    memset(input, ' ', MANY);
    memcpy(input + MANY, "POINT(1 2)\n\n", 12);
    allocations = 0;
    CHECK(wkt_lines_some(input, MANY + 12, 18, 1, answers, 11, &taken, &written) == WKT_OK);
    CHECK(taken == MANY + 11 && written == 11 && !memcmp(answers, "POINT(1 2)\n", 11));
    CHECK(PORTABLE || allocations > 1);
    CHECK(wkt_lines_some(input, MANY + 12, 18, 1, answers, 10, &taken, &written) == WKT_TOO_SMALL);
    free(input);
    free(answers);
}

void test_texts(void) {
    versions();
    canonicals();
    fine_places();
    fine_others();
    short_texts();
    last_bytes();
    bounds();
    whole_texts();
    explanations();
    comparisons();
    orders();
    headers();
    many_lines();
    some_lines();
    rooms_again();
}
