/* The report program in plain C: the yardstick of the proved one. */
#include "blocks.h"
#include <stdio.h>
#include <stdlib.h>
#include <unistd.h>

int main(void)
{
    uint8_t block[BYTES];
    size_t held = 0;
    uint32_t place = 0, records = 0, cause = 0;
    pair total = {0, 0};
    for (;;) {
        ssize_t n = read(0, block + held, BYTES - held);
        if (n < 0)
            return 1;
        held += n;
        if (n == 0 && held == 0)
            break;
        if (n != 0 && held < BYTES)
            continue;
        cause = place == BLOCKS ? 13 : judge(place, place, block, held);
        if (cause)
            break;
        held = 0;
        place++;
        records += block[2];
        if (block[3])
            total = sum(total, (pair){load_long(block + SUMS), load_long(block + SUMS + 8)});
        else
            for (int i = 0; i < block[2]; i++)
                total = sum(total, ends_of(block + 4 + 16 * i));
    }
    if (cause)
        return printf("R %u %u\n", cause, place) < 0;
    int64_t ends[2] = {total.lower, total.upper};
    printf("%u [", records);
    for (int i = 0; i < 2; i++)
        printf("%s%lld.%03lld%c", ends[i] < 0 ? "-" : "", llabs(ends[i]) / 1000, llabs(ends[i]) % 1000, ",]"[i]);
    return putchar('\n') < 0;
}
