/* One pair's text, counted: writes 1,000 pairs of all lengths ROUNDS times and prints a sum of the bytes. With -DPLAIN by plain C (the yardstick),
 * else by the library. Usage: write ROUNDS */
#include "../include/donzibrau.h"
#include "pairs.h"
#include <stdio.h>
#include <stdlib.h>

enum { PAIRS = 1000 };

static size_t text_of(pair a, uint8_t *buffer, size_t length)
{
#ifdef PLAIN
    (void)length;
    return write_pair(a, buffer) - buffer;
#else
    size_t written = 0;
    dzb_write(a.lower, a.upper, buffer, length, &written);
    return written;
#endif
}

/* An end below ten to the k-th in size, of either sign. */
static int64_t end_below(int k, uint64_t n)
{
    uint64_t mixed = (n + 1) * 0x9e3779b97f4a7c15u, power = 1;
    while (k-- > 0)
        power *= 10;
    int64_t size = (mixed >> 24) % power;
    return mixed >> 63 ? -size : size;
}

int main(int count, char **words)
{
    static pair pairs[PAIRS];
    uint8_t buffer[32];
    uint64_t bytes = 0;
    for (uint32_t n = 0; n < PAIRS; n++)
        pairs[n] = (pair){end_below(n % 10, n), end_below(n / 10 % 10, n + PAIRS)};
    for (int round = count > 1 ? atoi(words[1]) : 1; round > 0; round--)
        for (int n = 0; n < PAIRS; n++) {
            size_t length = text_of(pairs[n], buffer, sizeof buffer);
            for (size_t i = 0; i < length; i += 7)
                bytes += buffer[i];
            bytes += length;
        }
    printf("%llu\n", (unsigned long long)bytes);
}
