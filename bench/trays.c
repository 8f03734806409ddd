/* Sheets of trays, counted: 1,000 sheets of 200 trays, outward and inward, ROUNDS times, and prints a number that depends on every answer. With
 * -DPLAIN by plain C that sums in 128 bits (the yardstick), else by the library. Usage: trays mixed|positive ROUNDS */
#include "../include/donzibrau.h"
#include "pairs.h"
#include <stdio.h>
#include <stdlib.h>

enum { TRAYS = 200, SHEETS = 1000 };

#ifdef PLAIN
typedef __int128 wide;

static int64_t to_thousandths(bool up, wide n) { return (int64_t)(n / 1000) + (up ? n % 1000 > 0 : -(n % 1000 < 0)); }

/* The closed form of the product, as in pairs.h, left exact. */
static inline void add_product(pair a, pair b, wide *low, wide *high)
{
    int64_t p = larger(a.lower, 0), q = larger(-a.lower, 0), r = larger(a.upper, 0), s = larger(-a.upper, 0);
    int64_t t = larger(b.lower, 0), u = larger(-b.lower, 0), v = larger(b.upper, 0), w = larger(-b.upper, 0);
    *low += larger(p * t, s * w) - larger(r * u, q * v);
    *high += larger(r * v, q * u) - larger(p * w, s * t);
}

/* Its own 2 and 4, tray by tray; a total is beyond the range if its thousandths are. */
static uint32_t plain_sheet(const int32_t *ends, size_t count, bool inward, dzb_pair result)
{
    if (count > DZB_SHEET_ENDS || count % 4 != 0)
        return DZB_SHEET_BOUNDS;
    wide low = 0, high = 0;
    for (size_t k = 0; k < count; k += 4) {
        pair mass = {ends[k], ends[k + 1]}, number = {ends[k + 2], ends[k + 3]};
        if (is_beyond(mass) || is_beyond(number))
            return DZB_END_BEYOND_RANGE;
        add_product(mass, number, &low, &high);
    }
    pair total = {to_thousandths(inward, low), to_thousandths(!inward, high)};
    if (is_beyond(total))
        return DZB_RESULT_BEYOND_RANGE;
    result[0] = (int32_t)total.lower, result[1] = (int32_t)total.upper;
    return DZB_DONE;
}
#define dzb_sheet plain_sheet
#endif

static int32_t drawn(uint32_t *state)
{
    *state = *state * 1664525 + 1013904223;
    return (int32_t)(*state >> 16) - 32768;
}

int main(int count, char **words)
{
    static int32_t ends[SHEETS * 4 * TRAYS];
    bool positive = count > 1 && words[1][0] == 'p';
    uint32_t told = 0, state = 1;
    for (int k = 0; k < SHEETS * 4 * TRAYS; k++) {
        int32_t end = drawn(&state);
        ends[k] = positive ? 1 + (end & 32767) : end;
    }
    for (int round = count > 2 ? atoi(words[2]) : 1; round > 0; round--)
        for (int sheet = 0; sheet < SHEETS; sheet++)
            for (int inward = 0; inward < 2; inward++) {
                dzb_pair result = {0, 0};
                told = told * 31 + dzb_sheet(ends + sheet * 4 * TRAYS, 4 * TRAYS, inward, result);
                told = (told * 31 + (uint32_t)result[0]) * 31 + (uint32_t)result[1];
            }
    printf("%u\n", told);
}
