/* The arithmetic of pairs and their text in plain C, an independent reading of document 01: the yardstick of the benchmarks, and no part of the product. */
#ifndef PAIRS_H
#define PAIRS_H
#include <stdbool.h>
#include <stdint.h>

typedef struct {
    int64_t lower, upper;
} pair;

enum { GREATEST = 2000000000 };

static inline bool is_outside(int64_t end) { return end < -GREATEST || end > GREATEST; }
static inline bool is_beyond(pair a) { return is_outside(a.lower) || is_outside(a.upper); }
static inline int64_t larger(int64_t x, int64_t y) { return x < y ? y : x; }
static inline int64_t smaller(int64_t x, int64_t y) { return x < y ? x : y; }

static inline int64_t floor_div(int64_t n, int64_t d) { return n / d - ((n % d != 0) & ((n < 0) != (d < 0))); }
static inline int64_t ceiling_div(int64_t n, int64_t d) { return n / d + ((n % d != 0) & ((n < 0) == (d < 0))); }

/* n/d and m/e to thousandths, each once. */
static inline pair rounded(bool inward, int64_t n, int64_t d, int64_t m, int64_t e)
{
    return inward ? (pair){ceiling_div(n, d), floor_div(m, e)} : (pair){floor_div(n, d), ceiling_div(m, e)};
}

static inline pair sum(pair a, pair b) { return (pair){a.lower + b.lower, a.upper + b.upper}; }
static inline pair difference(pair a, pair b) { return (pair){a.lower - b.upper, a.upper - b.lower}; }

/* The closed form: one expression for all of 01's cases. */
static inline pair product(bool inward, pair a, pair b)
{
    int64_t p = larger(a.lower, 0), q = larger(-a.lower, 0), r = larger(a.upper, 0), s = larger(-a.upper, 0);
    int64_t t = larger(b.lower, 0), u = larger(-b.lower, 0), v = larger(b.upper, 0), w = larger(-b.upper, 0);
    return rounded(inward, larger(p * t, s * w) - larger(r * u, q * v), 1000, larger(r * v, q * u) - larger(p * w, s * t), 1000);
}

static inline bool holds_zero(pair b) { return !((b.lower > 0 && b.upper > 0) || (b.lower < 0 && b.upper < 0)); }

/* b is zero-free; the ends of a are not held to the range. */
static inline pair quotient(bool inward, pair a, pair b)
{
    int64_t first = b.lower > 0 ? a.lower : a.upper, last = b.lower > 0 ? a.upper : a.lower;
    return rounded(inward, first * 1000, first >= 0 ? b.upper : b.lower, last * 1000, last >= 0 ? b.lower : b.upper);
}

static inline pair solution(bool inward, pair a, pair c, pair b)
{
    return quotient(inward, (pair){b.lower - a.lower, b.upper - a.upper}, (pair){c.upper, c.lower});
}

/* 02, Q-7: c holds zero. 16 if no pair of fractions solves c times x = d, 17 if more than one does; else 0, and d over *end is the one. */
static inline int held(pair c, pair d, int64_t *end)
{
    if (c.lower > c.upper)
        c = (pair){c.upper, c.lower}, d = (pair){d.upper, d.lower};
    int64_t far = larger(-c.lower, c.upper), near = smaller(-c.lower, c.upper), above = d.upper, below = -d.lower;
    *end = far == c.upper ? c.upper : c.lower;
    if (above < 0 || below < 0 || far * above < near * below || far * below < near * above || (far == 0 && above + below > 0))
        return 16;
    return far * above == near * below || far * below == near * above ? 17 : 0;
}

static inline uint8_t *write_number(uint32_t n, uint8_t *to)
{
    int width = n < 100 ? n < 10 ? 1 : 2 : n < 10000 ? n < 1000 ? 3 : 4 : n < 1000000 ? n < 100000 ? 5 : 6 : 7;
    for (int k = width; k > 0; k--, n /= 10)
        to[k - 1] = '0' + n % 10;
    return to + width;
}

static inline uint8_t *write_end(int64_t end, uint8_t *to)
{
    uint32_t size = end < 0 ? -end : end;
    if (end < 0)
        *to++ = '-';
    to = write_number(size / 1000, to);
    size %= 1000;
    to[0] = '.', to[1] = '0' + size / 100, to[2] = '0' + size / 10 % 10, to[3] = '0' + size % 10;
    return to + 4;
}

static inline uint8_t *write_pair(pair a, uint8_t *to)
{
    *to++ = '[';
    to = write_end(a.lower, to);
    *to++ = ',';
    to = write_end(a.upper, to);
    *to++ = ']';
    return to;
}
#endif
