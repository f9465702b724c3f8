/* A number of a canonical text as a double, exactly: the nearest (of two the even one), or the nearest that isn't greater, or
 * that isn't less. SQLite's extension includes this file too.
 *
 * The locale has no say in it, and of the C library ldexp alone. The processor rounds to the nearest, as it does unless it is
 * told otherwise. A canonical number has at most 39 digits, of which at most 36 are behind the point, and its units are at most
 * 2^127: so no result is subnormal or infinite. */
#ifndef WKT_DOUBLES_H
#define WKT_DOUBLES_H

#include <float.h>
#include <math.h>
#include <stdbool.h>
#include <stdint.h>
#include <string.h>

typedef enum Rounding { ROUND_DOWN = -1, ROUND_NEAREST, ROUND_UP } Rounding;

typedef struct Wide {
    uint64_t high, low;
} Wide;

static inline bool wide_reaches(Wide one, Wide other) {
    return one.high != other.high ? one.high > other.high : one.low >= other.low;
}

static inline Wide wide_less(Wide one, Wide other) {
    return (Wide){one.high - other.high - (one.low < other.low), one.low - other.low};
}

/* By a factor of at most ten. */
static inline Wide wide_times(Wide one, uint32_t factor, uint32_t more) {
    uint64_t low = (one.low & UINT32_MAX) * factor + more, middle = (one.low >> 32) * factor + (low >> 32);
    return (Wide){one.high * factor + (middle >> 32), middle << 32 | (low & UINT32_MAX)};
}

static inline bool wide_bit(Wide one, int at) { return (at < 64 ? one.low >> at : one.high >> (at - 64)) & 1; }

/* Whether one of so many lowest bits is set. */
static inline bool wide_has_below(Wide one, int bits) {
    if (bits >= 64) return one.low != 0 || (bits > 64 && one.high << (128 - bits) != 0);
    return bits > 0 && one.low << (64 - bits) != 0;
}

/* units / 10^places, by a division of integers, a bit at a time: 53 bits of the quotient, the one behind them, and whether
 * anything is left. */
static inline double double_of_wide(Wide units, int places, Rounding rounding) {
    const uint64_t enough = (uint64_t)1 << 53;
    Wide fives = {0, 1}, rest = {0, 0};
    uint64_t quotient = 0;
    int left = units.high ? 128 : 64; /* bits of units; below 0, zeros behind them */
    bool is_half, is_more;
    if (units.high == 0 && units.low == 0) return 0;
    for (int i = 0; i < places; i++) fives = wide_times(fives, 5, 0);
    while (quotient < enough) {
        left--;
        rest = wide_times(rest, 2, left >= 0 && wide_bit(units, left));
        quotient *= 2;
        if (!wide_reaches(rest, fives)) continue;
        rest = wide_less(rest, fives);
        quotient++;
    }
    is_half = quotient & 1;
    is_more = rest.high != 0 || rest.low != 0 || wide_has_below(units, left);
    quotient /= 2;
    if (rounding == ROUND_UP) quotient += is_half || is_more;
    if (rounding == ROUND_NEAREST) quotient += is_half && (is_more || (quotient & 1));
    return ldexp((double)quotient, left + 1 - places);
}

/* The same where both numbers are doubles, so that one operation rounds to the nearest. Times 10^places, over its last bit, it
 * differs from the units by at most 5^places / 2: so the last 64 bits tell the difference. */
static inline double double_of_small(uint64_t units, int places, Rounding rounding) {
    static const double tens[] = {1e0,  1e1,  1e2,  1e3,  1e4,  1e5,  1e6,  1e7,  1e8,  1e9,
                                  1e10, 1e11, 1e12, 1e13, 1e14, 1e15, 1e16, 1e17, 1e18, 1e19};
    const uint64_t hidden = (uint64_t)1 << 52;
    double found = (double)units / tens[places];
    uint64_t bits;
    int shift;
    int64_t over;
    if (rounding == ROUND_NEAREST || units == 0) return found;
    memcpy(&bits, &found, sizeof bits);
    shift = 1075 - (int)(bits >> 52) - places;
    over = (int64_t)((bits % hidden + hidden) * ((uint64_t)tens[places] >> places) - (shift < 64 ? units << shift : 0));
    if (over > 0 && rounding == ROUND_DOWN) bits--;
    if (over < 0 && rounding == ROUND_UP) bits++;
    memcpy(&found, &bits, sizeof found);
    return found;
}

/* The number of so many bytes. What is no canonical number gives some double. */
static inline double double_of(const char *at, size_t length, Rounding rounding) {
    const char *end = at + length, *point = NULL;
    bool is_minus = length > 0 && *at == '-';
    Wide units = {0, 0};
    int places;
    double found;
    for (at += is_minus; at < end; at++) {
        if (*at == '.')
            point = at + 1;
        else if (units.high == 0 && units.low < UINT64_MAX / 10 - 1)
            units.low = units.low * 10 + (uint64_t)(*at - '0');
        else
            units = wide_times(units, 10, (uint32_t)(*at - '0'));
    }
    places = point == NULL ? 0 : end - point < 36 ? (int)(end - point) : 36;
    if (is_minus) rounding = (Rounding)-rounding;
    if (FLT_EVAL_METHOD == 0 && units.high == 0 && units.low < (uint64_t)1 << 53 && places <= 19)
        found = double_of_small(units.low, places, rounding);
    else
        found = double_of_wide(units, places, rounding);
    return is_minus ? -found : found;
}

#endif
