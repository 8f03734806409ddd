/* One sort of call, ROUNDS times: what a single call takes, which the rows of whole programs hide. Prints the sum of what was returned.
 * Usage: calls SORT ROUNDS; with no words the sorts. */
#include "../include/donzibrau.h"
#include <stdio.h>
#include <stdlib.h>
#include <string.h>

enum { MANY = 64 };

static uint8_t list[600];
static size_t length;

static void constant(int32_t lower, int32_t upper)
{
    const uint32_t ends[2] = {(uint32_t)lower, (uint32_t)upper};
    list[length++] = DZB_CODE_CONSTANT;
    for (int end = 0; end < 2; end++)
        for (int byte = 0; byte < 4; byte++)
            list[length++] = (uint8_t)(ends[end] >> (8 * byte));
}

/* A constant and 60 steps with one operand, or 30 with two; a constant alone; one whose code is unknown, 6; two, 11. */
static void make_list(const char *sort)
{
    constant(-1234, 5678);
    if (strcmp(sort, "one") == 0)
        return;
    if (strcmp(sort, "unknown") == 0)
        list[0] = 255;
    else if (strcmp(sort, "open") == 0)
        constant(997, 1002);
    else if (strcmp(sort, "unary") == 0)
        for (int i = 0; i < 60; i++)
            list[length++] = (uint8_t)(DZB_CODE_NEGATION + i % 3);
    else
        for (int i = 0; i < 30; i++) {
            constant(i % 3 ? 1001 : 997, i % 5 ? 999 : 1002);
            list[length++] = strcmp(sort, "quotient") == 0 ? DZB_CODE_QUOTIENT : strcmp(sort, "product") == 0 ? DZB_CODE_PRODUCT : DZB_CODE_SUM;
        }
}

#define READ(text) dzb_read((const uint8_t *)(text), sizeof(text) - 1, r)
#define CENTRE(text) dzb_read_centre((const uint8_t *)(text), sizeof(text) - 1, r)
#define LINE(text) dzb_line((const uint8_t *)(text), sizeof(text) - 1, r)
#define SORTS(DO) \
    DO("negation", dzb_negation(e[0], e[1], r)) \
    DO("opposite", dzb_opposite(e[0], e[1], r)) \
    DO("dual", dzb_dual(e[0], e[1], r)) \
    DO("join", dzb_join(e[0], e[1], e[2], e[3], r)) \
    DO("meet", dzb_meet(e[0], e[1], e[2], e[3], r)) \
    DO("sum", dzb_sum(e[0], e[1], e[2], e[3], inward, r)) \
    DO("difference", dzb_difference(e[0], e[1], e[2], e[3], inward, r)) \
    DO("product", dzb_product(e[0], e[1], e[2], e[3], inward, r)) \
    DO("quotient", dzb_quotient(e[0], e[1], e[2], e[3], inward, r)) \
    DO("quotient-5", dzb_quotient(e[0], e[1], -1, 1, inward, r)) \
    DO("equation", dzb_equation(e[0], e[1], e[2], e[3], e[4], e[5], inward, r)) \
    DO("claim", dzb_claim(e[0], e[1], e[2], e[3], e[4], e[5], e[0], e[1], replies)) \
    DO("read", READ("[1.234,56.7]")) \
    DO("read-none", READ("")) \
    DO("read-open", READ("x")) \
    DO("read-late", READ("[1.5,2.x]")) \
    DO("centre", CENTRE("(1.234;56.700)")) \
    DO("centre-none", CENTRE("")) \
    DO("centre-late", CENTRE("(1.500x)")) \
    DO("write", dzb_write(e[0], e[1], buffer, sizeof buffer, &written)) \
    DO("write-centre", dzb_write_centre(2 * e[0], 2 * e[1], buffer, sizeof buffer, &written)) \
    DO("first-list", dzb_first_list(4, buffer, sizeof buffer, &written)) \
    DO("first-list-3", dzb_first_list(4, buffer, 1, &written)) \
    DO("line-A", LINE("O A [1.001,2.002] [1.5,2]")) \
    DO("line-M", LINE("O M [1.001,2.002] [1.5,2]")) \
    DO("line-D", LINE("O D [1.001,2.002] [1.5,2]")) \
    DO("line-E", LINE("O E [0.500,0.600] [2.000,4.000] [6.500,20.600]")) \
    DO("line-R5", LINE("O D [1.000,2.000] [0.000,1.000]")) \
    DO("line-R1", LINE("O M x [1,2]")) \
    DO("list-none", dzb_list(list, 0, inward, r)) \
    DO("list-one", dzb_list(list, length, inward, r)) \
    DO("list-unknown", dzb_list(list, length, inward, r)) \
    DO("list-open", dzb_list(list, length, inward, r)) \
    DO("list-unary", dzb_list(list, length, inward, r)) \
    DO("list-sum", dzb_list(list, length, inward, r)) \
    DO("list-product", dzb_list(list, length, inward, r)) \
    DO("list-quotient", dzb_list(list, length, inward, r)) \
    DO("within-none", dzb_list_within(list, 0, inward, 5, 9, r)) \
    DO("burnin-unary", dzb_burnin_list(list, length, inward, 16, 64, r)) \
    DO("burnin-sum", dzb_burnin_list(list, length, inward, 16, 64, r))

int main(int count, char **words)
{
    if (count < 3) {
#define TELL(sort, call) puts(sort);
        SORTS(TELL)
        return 0;
    }
    static int32_t ends[MANY][6];
    const char *sort = words[1];
    const long rounds = atol(words[2]);
    dzb_pair r = {0, 0};
    uint8_t buffer[64], replies[2];
    size_t written = 0;
    uint32_t draw = 12345, sum = 0;
    for (int i = 0; i < MANY; i++)
        for (int j = 0; j < 6; j++) {
            draw = draw * 1664525u + 1013904223u;
            int32_t end = (int32_t)(draw >> 1) % 100000;
            ends[i][j] = j == 2 || j == 3 ? (i % 2 ? 1000 + end : -1000 - end) : end - 50000;
        }
    if (strncmp(sort, "list-", 5) == 0 || strncmp(sort, "burnin-", 7) == 0)
        make_list(strchr(sort, '-') + 1);
#define RUN(name, call) \
    if (strcmp(sort, name) == 0) \
        for (long i = 0; i < rounds; i++) { \
            const int32_t *e = ends[i % MANY]; \
            const bool inward = i / MANY % 2; \
            (void)e, (void)inward; \
            sum += (call); \
        }
    SORTS(RUN)
    printf("%u %d %d %u\n", (unsigned)sum, (int)r[0], (int)r[1], (unsigned)written);
    return 0;
}
