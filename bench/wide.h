/* Numbers of 128 bits for exact.c: the roundings of docs/SCHEME.md, and their printing. Unproved, and for comparison alone. */
#ifndef WIDE_H
#define WIDE_H

#include "start.h"

/* n / 2^k to the nearest whole number, a half going up, for k above 0 */
static wide halved(wide n, int k)
{
    return (n + ((wide)1 << (k - 1))) >> k;
}

static wide scale(wide v, struct multiplier m)
{
    return (v * m.n + m.half) >> m.k;
}

static wide product(int64_t a, int64_t b)
{
    return (wide)a * b;
}

/* n / d to the nearest whole number, a half going up, for d above 0; it is below 2^60 in size, as a turn is */
static int64_t rounded(wide n, int64_t d)
{
    wide twice = 2 * n + d;
    if (twice == (int64_t)twice) return (int64_t)twice / (2 * d) - ((int64_t)twice % (2 * d) < 0);
    return (int64_t)(twice / (2 * d)) - (twice % (2 * d) < 0);
}

static wide size_of(wide v) { return v < 0 ? -v : v; }

static void print_wide(wide v)
{
    char digits[44], *end = digits + sizeof digits - 1;
    unsigned __int128 rest = (unsigned __int128)size_of(v);
    *end = 0;
    do *--end = (char)('0' + (int)(rest % 10)); while (rest /= 10);
    printf("%s%s", v < 0 ? "-" : "", end);
}

#endif
