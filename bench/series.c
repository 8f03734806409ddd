/* The series of small lists over 4 constants, run through from the first list to the last, ROUNDS times; prints a number that depends on every byte.
 * With -DPLAIN by plain C (the yardstick), else by the library. Usage: series ROUNDS */
#include "../include/donzibrau.h"
#include <stdio.h>
#include <stdlib.h>
#ifdef PLAIN
#define dzb_first_list first_list
#define dzb_next_list next_list

/* A step is its place in the order: 0 to 3 the positions, 4 to 12 the codes. */
static int takes(int step) { return step < 4 ? 0 : step > 6 && step < 10 ? 1 : 2; }

/* The lowest steps from `at` on, the one there `from` or higher; 0 where there are none. */
static int complete(int constants, int *steps, int count, int at, int waiting, int from)
{
    for (; at < count; at++, from = 0) {
        int step = from, left = count - at - 1;
        while (step < 13 && ((step < 4 && step >= constants) || takes(step) > waiting || waiting - takes(step) > left))
            step++;
        if (step == 13)
            return 0;
        steps[at] = step;
        waiting += 1 - takes(step);
    }
    return 1;
}

static uint32_t give(const int *steps, int count, uint8_t *buffer, size_t length, size_t *written)
{
    uint8_t bytes[10];
    size_t n = 0;
    for (int i = 0; i < count; i++) {
        bytes[n++] = steps[i] < 4 ? 0 : steps[i] - 3;
        if (steps[i] < 4)
            bytes[n++] = steps[i];
    }
    if (length < n)
        return 3;
    for (size_t i = 0; i < n; i++)
        buffer[i] = bytes[i];
    *written = n;
    return 0;
}

static uint32_t first_list(size_t constants, uint8_t *buffer, size_t length, size_t *written)
{
    int steps[5];
    if (constants < 1 || constants > 4)
        return 19;
    complete(constants, steps, 1, 0, 0, 0);
    return give(steps, 1, buffer, length, written);
}

static uint32_t next_list(size_t constants, const uint8_t *list, size_t list_length, uint8_t *buffer, size_t length, size_t *written)
{
    int steps[5], waits[6] = {0}, count = 0;
    if (constants < 1 || constants > 4)
        return 19;
    for (size_t i = 0; i < list_length; i++, count++) {
        if (count == 5 || list[i] > 9 || (list[i] == 0 && (i + 1 == list_length || list[i + 1] >= constants)))
            return 20;
        int step = list[i] ? list[i] + 3 : list[++i];
        if (takes(step) > waits[count])
            return 20;
        steps[count] = step;
        waits[count + 1] = waits[count] + 1 - takes(step);
    }
    if (waits[count] != 1 || count == 0)
        return 20;
    for (int at = count - 1; at >= 0; at--)
        if (complete(constants, steps, count, at, waits[at], steps[at] + 1))
            return give(steps, count, buffer, length, written);
    if (count == 5) {
        *written = 0;
        return 0;
    }
    complete(constants, steps, count + 1, 0, 0, 0);
    return give(steps, count + 1, buffer, length, written);
}
#endif

int main(int count, char **words)
{
    uint8_t lists[2][DZB_SERIES_BYTES] = {{0}};
    uint32_t told = 0;
    for (int round = count > 1 ? atoi(words[1]) : 1; round > 0; round--) {
        size_t length = 0;
        int at = 0;
        told += dzb_first_list(4, lists[at], sizeof lists[at], &length);
        while (length > 0) {
            for (size_t i = 0; i < length; i++)
                told = told * 31 + lists[at][i];
            told += dzb_next_list(4, lists[at], length, lists[1 - at], sizeof lists[at], &length);
            at = 1 - at;
        }
    }
    printf("%u\n", told);
}
