/* A block of the day file in plain C, an independent reading of document 02's: a yardstick of the benchmarks, and no part of the product. */
#ifndef BLOCKS_H
#define BLOCKS_H
#include "pairs.h"
#include <stddef.h>
#include <string.h>

enum { BYTES = 512, SUMS = 484, SUMMED = 508, RECORDS = 30, BLOCKS = 100 };

static inline uint32_t load(const uint8_t *b) { return b[0] | (uint32_t)b[1] << 8 | (uint32_t)b[2] << 16 | (uint32_t)b[3] << 24; }

static inline void store(uint8_t *b, uint32_t word)
{
    for (int i = 0; i < 4; i++)
        b[i] = word >> 8 * i;
}

static inline pair ends_of(const uint8_t *record) { return (pair){(int32_t)load(record + 8), (int32_t)load(record + 12)}; }

static inline int64_t load_long(const uint8_t *b) { return (int64_t)(load(b) | (uint64_t)load(b + 4) << 32); }

static inline void store_long(uint8_t *b, int64_t x)
{
    store(b, (uint32_t)x);
    store(b + 4, (uint32_t)((uint64_t)x >> 32));
}

static inline uint32_t byte_sum(const uint8_t *block)
{
    uint32_t sum = 0;
    for (int i = 0; i < SUMMED; i++)
        sum += block[i];
    return sum;
}

/* 0, or 13, 14, 15, 22: of a block whose number may be from first to last. */
static inline uint32_t judge(uint32_t first, uint32_t last, const uint8_t *block, size_t length)
{
    if (length != BYTES)
        return 13;
    if (byte_sum(block) != load(block + SUMMED))
        return 14;
    uint32_t number = block[0] | (uint32_t)block[1] << 8;
    if (number < first || last < number || RECORDS < block[2] || 1 < block[3])
        return 15;
    for (int i = 4 + 16 * block[2]; i < SUMS; i++)
        if (block[i])
            return 15;
    for (int i = SUMS + 16 * block[3]; i < SUMMED; i++)
        if (block[i])
            return 15;
    int64_t lower = 0, upper = 0;
    for (int i = 0; i < block[2]; i++) {
        pair ends = ends_of(block + 4 + 16 * i);
        if (is_beyond(ends))
            return 15;
        lower += ends.lower;
        upper += ends.upper;
    }
    return block[3] && (load_long(block + SUMS) != lower || load_long(block + SUMS + 8) != upper) ? 22 : 0;
}

static inline uint32_t begin_block(uint32_t number, uint32_t layout, uint8_t *block, size_t length)
{
    if (BLOCKS <= number || length != BYTES)
        return 13;
    if (1 < layout)
        return 15;
    memset(block, 0, BYTES);
    block[0] = number;
    block[3] = layout;
    store(block + SUMMED, number + layout);
    return 0;
}

static inline uint32_t add_record(uint32_t box, uint32_t line, int32_t lower, int32_t upper, uint8_t *block, size_t length)
{
    uint32_t cause = judge(0, BLOCKS - 1, block, length);
    if (cause)
        return cause;
    if (block[2] == RECORDS)
        return 13;
    if (is_beyond((pair){lower, upper}))
        return 2;
    uint32_t words[4] = {box, line, (uint32_t)lower, (uint32_t)upper};
    for (int i = 0; i < 4; i++)
        store(block + 4 + 16 * block[2] + 4 * i, words[i]);
    block[2]++;
    if (block[3]) {
        store_long(block + SUMS, load_long(block + SUMS) + lower);
        store_long(block + SUMS + 8, load_long(block + SUMS + 8) + upper);
    }
    store(block + SUMMED, byte_sum(block));
    return 0;
}
#endif
