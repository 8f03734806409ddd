/* Directed intervals in thousandths, as document 01 defines them: C functions of the archive that `tools/build capi` writes.
 *
 * Each function takes any numbers and any bytes: there is nothing to test before a call. It returns 0 (DZB_DONE) and writes its result
 * to the places lent for it, or it returns a refusal number and writes nothing: every byte that is lent stays as it was.
 *
 * Ends are thousandths: 1500 stands for 1.500. A pair is two ends, the lower first, in any order: one whose lower end is above its upper
 * end is improper and is not put in order. An end given is in range from DZB_LEAST to DZB_GREATEST.
 *
 * What C cannot check and a caller has to see to: no pointer is null, also where its length is 0; each points to as many elements as
 * are said, of its type and aligned to it; and nothing that is lent to be written overlaps another argument of the call. So a result
 * may not be written over the bytes that are read, and `result`, `buffer` and `written` are places apart. Ends are passed by value, so
 * a result may well go to where the ends came from: dzb_dual(a[0], a[1], a). There is no state between calls: threads may call at once.
 */
#ifndef DONZIBRAU_H
#define DONZIBRAU_H

#include <stddef.h>
#include <stdint.h>
#ifndef __cplusplus
#include <stdbool.h>
#endif

#ifdef __cplusplus
extern "C" {
#endif

/* The version: the commands, donzibrau.pc and the man pages take it from this line; others are compared with it. CHANGES.md says what each brought. */
#define DZB_VERSION "1.14.0"

/* A pair: lower end, upper end. */
typedef int32_t dzb_pair[2];

/* The range of an end. */
#define DZB_LEAST (-2000000000)
#define DZB_GREATEST 2000000000

/* The way of rounding. Outward: the lower end down and the upper end up. Inward: the lower end up and the upper end down. */
#define DZB_OUTWARD false
#define DZB_INWARD true

/* The longest text of a pair, the longest line without its byte 10, the most steps of a list, the most values that wait in one. */
#define DZB_TEXT_BYTES 27
#define DZB_LINE_BYTES 96
#define DZB_LIST_STEPS 64
#define DZB_LIST_VALUES 16

/* The bytes of a block of the day file, the most records in one, the largest number of one; its layouts, without sums and with them. */
#define DZB_BLOCK_BYTES 512
#define DZB_BLOCK_RECORDS 30
#define DZB_BLOCK_LAST 99
#define DZB_LAYOUT_PLAIN 0
#define DZB_LAYOUT_SUMS 1

/* The most ends of a sheet of trays, four to a tray. */
#define DZB_SHEET_ENDS 800

/* The most constants of the series of small lists, and the longest of its lists. */
#define DZB_SERIES_CONSTANTS 4
#define DZB_SERIES_BYTES 10

/* The refusal numbers of document 01's table, and those that document 02 adds to it. */
enum dzb_cause {
    DZB_DONE = 0,
    DZB_MALFORMED = 1,           /* text of a pair not in its form */
    DZB_END_BEYOND_RANGE = 2,    /* a given end beyond the range */
    DZB_SHORT_BUFFER = 3,        /* buffer for a text shorter than that text */
    DZB_RESULT_BEYOND_RANGE = 4, /* a rounded end beyond the range */
    DZB_ZERO_DIVISOR = 5,        /* divisor, or c of a claim, holds zero */
    DZB_UNKNOWN_CODE = 6,        /* unknown step code, or letter in a line */
    DZB_SHORT_CONSTANT = 7,      /* fewer than 8 bytes after code 0 */
    DZB_STACK_UNDERFLOW = 8,     /* too few values for a step */
    DZB_STACK_OVERFLOW = 9,      /* a 17th value, or one beyond the caller's limit */
    DZB_TOO_MANY_STEPS = 10,     /* a 65th step, or one beyond the caller's limit */
    DZB_NOT_ONE_VALUE = 11,      /* not exactly one value at the end, the empty list included */
    DZB_MALFORMED_LINE = 12,     /* line over 96 bytes, or wrong count of fields */
    DZB_BLOCK_BOUNDS = 13,       /* a block's number above 99, bytes that are not 512, a block that holds 30 records */
    DZB_BLOCK_CHECKSUM = 14,     /* the sum of a block's bytes differs */
    DZB_BLOCK_LAYOUT = 15,       /* another field of a block breaks the layout, or an end in it is beyond the range; begun with a layout that is neither 0 nor 1 */
    DZB_UNSOLVABLE = 16,         /* no pair of fractions solves the equation */
    DZB_SEVERAL_SOLUTIONS = 17,  /* more than one pair of fractions does */
    DZB_SHEET_BOUNDS = 18,       /* a sheet has more than 800 ends, or their number is not a multiple of four */
    DZB_CONSTANT_COUNT = 19,     /* a number of constants that isn't 1 to 4 */
    DZB_NOT_IN_SERIES = 20,      /* a list that isn't in the series */
    DZB_ODD_SUM = 21,            /* the sum of the ends is odd in thousandths: no centre */
    DZB_BLOCK_SUMS = 22          /* a sum that a block stores differs from its records */
};

/* Of a number that dzb_list, dzb_list_within or dzb_burnin_list returned: the refusal number, and the step to which it applies, counted from 0
 * (for DZB_NOT_ONE_VALUE the count of steps read). What the other functions return is the refusal number itself, and its step is 0. */
static inline uint32_t dzb_number(uint32_t returned) { return returned % 256; }
static inline uint32_t dzb_step(uint32_t returned) { return returned / 256; }

/* ---- operations. Each writes both ends of `result` and returns 0, or returns one of the numbers named and writes nothing. */

/* [-upper, -lower]; [-lower, -upper]; [upper, lower]. Refused: 2. */
uint32_t dzb_negation(int32_t lower, int32_t upper, dzb_pair result);
uint32_t dzb_opposite(int32_t lower, int32_t upper, dzb_pair result);
uint32_t dzb_dual(int32_t lower, int32_t upper, dzb_pair result);

/* [smaller lower, larger upper]; [larger lower, smaller upper]. Refused: 2. */
uint32_t dzb_join(int32_t a_lower, int32_t a_upper, int32_t b_lower, int32_t b_upper, dzb_pair result);
uint32_t dzb_meet(int32_t a_lower, int32_t a_upper, int32_t b_lower, int32_t b_upper, dzb_pair result);

/* a + b, a - b, a times b: exact, then rounded once. Refused: 2, then 4. */
uint32_t dzb_sum(int32_t a_lower, int32_t a_upper, int32_t b_lower, int32_t b_upper, bool inward, dzb_pair result);
uint32_t dzb_difference(int32_t a_lower, int32_t a_upper, int32_t b_lower, int32_t b_upper, bool inward, dzb_pair result);
uint32_t dzb_product(int32_t a_lower, int32_t a_upper, int32_t b_lower, int32_t b_upper, bool inward, dzb_pair result);

/* a / b. Refused: 2, then 5 where b holds zero, then 4. */
uint32_t dzb_quotient(int32_t a_lower, int32_t a_upper, int32_t b_lower, int32_t b_upper, bool inward, dzb_pair result);

/* The x of a + c times x = b, if exactly one pair of fractions solves it, which is always so where c holds no zero; mind the order of the
 * arguments: a, c, b. Refused: 2, then, only where c holds zero, 16 if none does or 17 if more than one does, then 4. */
uint32_t dzb_equation(int32_t a_lower, int32_t a_upper, int32_t c_lower, int32_t c_upper, int32_t b_lower, int32_t b_upper, bool inward,
                      dzb_pair result);

/* ---- text */

/* The pair whose text the `length` bytes at `text` are, no byte more or less (there is no byte 0 at the end): both ends of `result` are
 * written. An end may have three, two, one or no digits behind its point, and then no point: [1.5,2] is [1.500,2.000]. Refused, with nothing
 * written: 1, then 2. */
uint32_t dzb_read(const uint8_t *text, size_t length, dzb_pair result);

/* The text of a pair: the front of `buffer` is filled with it, and `written` gets its length, at most 27; the bytes behind the text stay as
 * they were, and no byte 0 is added. Refused, with nothing written to `buffer` nor to `written`: 2, then 3 where `length` is less than
 * the text's. */
uint32_t dzb_write(int32_t lower, int32_t upper, uint8_t *buffer, size_t length, size_t *written);

/* ---- lists of steps, lines */

/* The code of a step, a byte. Behind that of a constant come 8 bytes: lower, upper, 32-bit two's complement, low byte first. */
enum dzb_code {
    DZB_CODE_CONSTANT = 0,
    DZB_CODE_SUM = 1,
    DZB_CODE_DIFFERENCE = 2,
    DZB_CODE_PRODUCT = 3,
    DZB_CODE_NEGATION = 4,
    DZB_CODE_OPPOSITE = 5,
    DZB_CODE_DUAL = 6,
    DZB_CODE_JOIN = 7,
    DZB_CODE_MEET = 8,
    DZB_CODE_QUOTIENT = 9
};

/* The value of a list of steps in a way: both ends of `result` are written. Refused, with nothing written: at a step 10, 6, 7, 2, 8 or 9, or
 * at the end 11, or only then 5 or 4 at the earliest step that has one of them, 5 before 4 at one step: a divisor is looked at as it was
 * rounded. The number returned has the step too: see dzb_number and dzb_step. */
uint32_t dzb_list(const uint8_t *list, size_t length, bool inward, dzb_pair result);

/* The same for a caller with a share of memory of its own: at most `values` values wait at once, and the list has at most `steps` steps; 9 and 10
 * are judged by these. A limit above DZB_LIST_VALUES or DZB_LIST_STEPS counts as that, and 0 is a limit too. The fare module, which has 6
 * and 20, calls dzb_list_within(list, length, DZB_OUTWARD, 6, 20, result). What is accepted gives the same result under every wider
 * limit, and so in dzb_list, which is dzb_list_within at 16 and 64. */
uint32_t dzb_list_within(const uint8_t *list, size_t length, bool inward, size_t values, size_t steps, dzb_pair result);

/* The answer to a line of the slip program, its byte 10 not among the bytes given: `O` or `I`, one of `A S M D E`, and the pairs, cut at
 * every single space. Both ends of `result` are written. Refused, with nothing written: 12, 6, of each pair 1 or 2, then 5, or for
 * `E` 16 or 17, then 4. */
uint32_t dzb_line(const uint8_t *line, size_t length, dzb_pair result);

/* ---- blocks of the day file
 *
 * A block is 512 bytes, numbers low byte first: its number (2 bytes), the count of records, its layout, up to 30 records of 16 bytes (box, line, lower
 * end, upper end, 4 bytes each), zeros, and in the last 4 bytes the sum of all bytes before them. In layout 1 bytes 484 to 491 and 492 to 499 are the sums
 * of the lower and of the upper ends. */

/* Begins a block with no records: all 512 bytes of `block` are written. Refused, with nothing written: 13 where `number` is above 99 or `length`
 * is not 512, then 15 where `layout` is neither 0 nor 1. */
uint32_t dzb_begin_block(uint32_t number, uint32_t layout, uint8_t *block, size_t length);

/* Adds a record behind those of a block: its count, the record, the sums that it stores and its sum of bytes are written. Refused, with nothing written:
 * 13 where `length` is not 512, then 14, then 15 (the block's number may be any up to 99), then 22, then 13 where it holds 30 records, then 2. */
uint32_t dzb_add_record(uint32_t box, uint32_t line, int32_t lower, int32_t upper, uint8_t *block, size_t length);

/* ---- sheets of trays */

/* The total of a sheet: the sum of mass times count over its trays, exact, rounded once in a way. `ends` has `count` ends, four to a tray: mass, then
 * count, each lower end first. Trays may stand in any order: the answer is the same. No trays give [0, 0]. Both ends of `result` are written. Refused,
 * with nothing written: 18 where `count` is above 800 or not a multiple of four, then 2 for any end, then 4 for the total alone. */
uint32_t dzb_sheet(const int32_t *ends, size_t count, bool inward, dzb_pair result);

/* ---- the burn-in engine */

/* What dzb_list_within gives, for every list, way and limit: result, refusal and step or count. A second evaluator, written straight from the
 * meaning; it is slow, and takes more stack. For the factory, which runs every list through both. */
uint32_t dzb_burnin_list(const uint8_t *list, size_t length, bool inward, size_t values, size_t steps, dzb_pair result);

/* ---- the series of small lists, for burn-in
 *
 * Every list of 1 to 5 steps over 1 to 4 constants that dzb_list refuses with none of 6 to 11 once the constants stand there. They are named by position: a
 * constant is the byte 0 and its position, counted from 0, in place of the 8 bytes. Lists of fewer steps come first; then they go by the first step that differs,
 * constants by position before the codes 1 to 9. Over 1, 2, 3 and 4 constants there are 577, 2354, 5763 and 11236 lists. */

/* The first list: the front of `buffer` is filled with it, and `written` gets its length; the bytes behind it stay as they were. Refused, with nothing
 * written: 19 where `constants` isn't 1 to 4, then 3 where `length` is less than the list's. */
uint32_t dzb_first_list(size_t constants, uint8_t *buffer, size_t length, size_t *written);

/* The list that follows the `list_length` bytes at `list`: it goes to `buffer`, and its length to `written`, as above; at most DZB_SERIES_BYTES. If that list
 * was the last, `written` gets 0, which no list has, and `buffer` stays as it was. Refused, with nothing written: 19, then 20 where the list handed in
 * isn't in the series, then 3. `list` and `buffer` are places apart. */
uint32_t dzb_next_list(size_t constants, const uint8_t *list, size_t list_length, uint8_t *buffer, size_t length, size_t *written);

/* ---- counts from other machines */

/* Of a pair that another machine claims to be the x of a + c times x = b: replies[0] is 1 if it contains the one exact solution, and replies[1]
 * is 1 if it is moreover the pair that dzb_equation returns outward; each is 0 if not. Where dzb_equation would refuse with 4, replies[1] is 0 and
 * replies[0] still says whether the claim contains the solution. Refused, with nothing written: 2, also for the claim's ends, then 5 where c
 * holds zero. */
uint32_t dzb_claim(int32_t a_lower, int32_t a_upper, int32_t c_lower, int32_t c_upper, int32_t b_lower, int32_t b_upper, int32_t claim_lower,
                   int32_t claim_upper, uint8_t replies[2]);

/* ---- centre and spread: the text (m;r) of the weighbridge office, for the pair whose ends are m - r and m + r */

/* The pair that a text of the office writes: both ends of `result` are written. Centre and radius have three digits behind the point, and a radius
 * below zero gives an improper pair. Refused, with nothing written: 1, then 2. */
uint32_t dzb_read_centre(const uint8_t *text, size_t length, dzb_pair result);

/* The office's text of a pair: the front of `buffer` is filled with it, and `written` gets its length, at most DZB_TEXT_BYTES; the bytes behind the text
 * stay as they are. Refused, with nothing written: 2, then 21, then 3 where `length` is below the text's. */
uint32_t dzb_write_centre(int32_t lower, int32_t upper, uint8_t *buffer, size_t length, size_t *written);

#ifdef __cplusplus
}
#endif

#endif
