/* Records added to blocks, counted: begins 100 blocks and adds 30 records to each, ROUNDS times, and prints a number that depends on every byte.
 * With -DPLAIN by plain C (the yardstick), else by the library. Usage: adding LAYOUT ROUNDS */
#include "../include/donzibrau.h"
#include "blocks.h"
#include <stdio.h>
#include <stdlib.h>
#ifdef PLAIN
#define dzb_begin_block begin_block
#define dzb_add_record add_record
#endif

int main(int count, char **words)
{
    static uint8_t block[BYTES];
    uint32_t told = 0, state = 1, layout = count > 1 ? atoi(words[1]) : 0;
    for (int round = count > 2 ? atoi(words[2]) : 1; round > 0; round--)
        for (uint32_t number = 0; number < BLOCKS; number++) {
            told += dzb_begin_block(number, layout, block, BYTES);
            for (uint32_t line = 0; line < RECORDS; line++) {
                state = state * 1664525 + 1013904223;
                told += dzb_add_record(state, line, (int32_t)state % 2000000000, line, block, BYTES);
            }
            for (int i = 0; i < BYTES; i++)
                told = told * 31 + block[i];
        }
    printf("%u\n", told);
}
