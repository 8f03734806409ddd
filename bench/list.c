/* A list's steps, counted: evaluates each list of a file outward and inward and prints a sum of what came out. With -DPLAIN by plain C written
 * from document 01 (the yardstick), with -DBURNIN by the burn-in engine, else by the stack engine. Usage: list FILE ROUNDS; the file has a length byte low, a length byte high, and the
 * list's bytes, again and again (bench/lists). */
#include "../include/donzibrau.h"
#include "pairs.h"
#include <stdio.h>
#include <stdlib.h>

#ifdef PLAIN
enum { STEPS = 64, VALUES = 16 };
static const int8_t TAKES[10] = {0, 2, 2, 2, 1, 1, 1, 2, 2, 2};

static int32_t end_at(const uint8_t *s)
{
    return (int32_t)(s[0] | (uint32_t)s[1] << 8 | (uint32_t)s[2] << 16 | (uint32_t)s[3] << 24);
}

static uint32_t refused(uint32_t number, int step) { return number + 256 * step; }

/* The step's value; the cause, or 0. */
static int apply(uint8_t code, bool inward, pair a, pair b, pair *value)
{
    switch (code) {
    case 1: *value = sum(a, b); break;
    case 2: *value = difference(a, b); break;
    case 3: *value = product(inward, a, b); break;
    case 4: *value = (pair){-a.upper, -a.lower}; break;
    case 5: *value = (pair){-a.lower, -a.upper}; break;
    case 6: *value = (pair){a.upper, a.lower}; break;
    case 7: *value = (pair){smaller(a.lower, b.lower), larger(a.upper, b.upper)}; break;
    case 8: *value = (pair){larger(a.lower, b.lower), smaller(a.upper, b.upper)}; break;
    default:
        if (holds_zero(b))
            return 5;
        *value = quotient(inward, a, b);
    }
    return is_beyond(*value) ? 4 : 0;
}

static uint32_t evaluate(const uint8_t *s, size_t length, bool inward, dzb_pair result)
{
    uint8_t codes[STEPS];
    pair constants[STEPS], values[VALUES];
    bool ways[STEPS], wanted[VALUES + 1];
    int steps = 0, waiting = 0;
    for (size_t at = 0; at < length; steps++) {
        if (steps == STEPS)
            return refused(10, steps);
        uint8_t code = s[at++];
        if (code > 9)
            return refused(6, steps);
        if (code == 0) {
            if (length - at < 8)
                return refused(7, steps);
            constants[steps] = (pair){end_at(s + at), end_at(s + at + 4)};
            at += 8;
            if (is_beyond(constants[steps]))
                return refused(2, steps);
        }
        if (waiting < TAKES[code])
            return refused(8, steps);
        waiting += 1 - TAKES[code];
        if (waiting > VALUES)
            return refused(9, steps);
        codes[steps] = code;
    }
    if (waiting != 1)
        return refused(11, steps);
    wanted[0] = inward; /* from the last step back: the way in which each is wanted */
    for (int k = steps - 1, top = 1; k >= 0; k--) {
        bool way = wanted[--top];
        ways[k] = way;
        for (int n = TAKES[codes[k]]; n > 0; n--)
            wanted[top++] = way ^ (codes[k] == 5 || codes[k] == 6);
    }
    int top = 0;
    for (int k = 0; k < steps; k++) {
        if (codes[k] == 0) {
            values[top++] = constants[k];
            continue;
        }
        top -= TAKES[codes[k]];
        int cause = apply(codes[k], ways[k], values[top], values[top + TAKES[codes[k]] - 1], &values[top]);
        if (cause)
            return refused(cause, k);
        top++;
    }
    result[0] = values[0].lower;
    result[1] = values[0].upper;
    return 0;
}
#elif defined BURNIN
#define evaluate(list, length, inward, result) dzb_burnin_list(list, length, inward, DZB_LIST_VALUES, DZB_LIST_STEPS, result)
#else
#define evaluate dzb_list
#endif

int main(int count, char **words)
{
    static uint8_t lists[1 << 24];
    FILE *file = count == 3 ? fopen(words[1], "rb") : NULL;
    if (!file)
        return 2;
    size_t length = fread(lists, 1, sizeof lists, file);
    uint64_t sum = 0;
    for (int round = atoi(words[2]); round > 0; round--)
        for (size_t at = 0; at + 2 <= length;) {
            size_t n = lists[at] + 256 * lists[at + 1];
            for (int inward = 0; inward < 2; inward++) {
                dzb_pair result = {0, 0};
                uint32_t told = evaluate(lists + at + 2, n, inward, result);
                sum = sum * 31 + told + (uint32_t)result[0] * 3ull + (uint32_t)result[1] * 7ull;
            }
            at += 2 + n;
        }
    printf("%llu\n", (unsigned long long)sum);
}
