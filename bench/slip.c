/* The slip's job in C, tuned by hand: an independent reading of document 01 with Q-2's form of an end. It is the benchmark's fastest yardstick
 * and no part of the product. Like the slip it reads a line once, where it lies, and has two buffers and no other memory. */
#include "pairs.h"
#include <string.h>
#include <unistd.h>

enum { MOST = 999999, LONGEST = 96, OUTPUT = 35 };

static inline bool is_digit(uint8_t b) { return (uint8_t)(b - '0') < 10; }

/* The end at s, which byte 10 follows somewhere; NULL where there is none. */
static inline const uint8_t *read_end(const uint8_t *s, int64_t *end)
{
    bool minus = *s == '-';
    s += minus;
    if (!is_digit(*s))
        return NULL;
    int64_t value = *s++ - '0';
    if (value)
        for (int k = 0; k < 6 && is_digit(*s); k++)
            value = value * 10 + (*s++ - '0');
    value *= 1000;
    if (*s == '.') {
        if (!is_digit(*++s))
            return NULL;
        value += (*s++ - '0') * 100;
        if (is_digit(*s)) {
            value += (*s++ - '0') * 10;
            if (is_digit(*s))
                value += *s++ - '0';
        }
    }
    if (minus && !value)
        return NULL;
    *end = minus ? -value : value;
    return s;
}

static inline const uint8_t *read_pair(const uint8_t *s, pair *a)
{
    if (*s != '[' || !(s = read_end(s + 1, &a->lower)) || *s != ',' || !(s = read_end(s + 1, &a->upper)) || *s != ']')
        return NULL;
    return s + 1;
}

/* How many fields there are from s on, and the byte 10 behind them. */
static int count_fields(const uint8_t *s, const uint8_t **end)
{
    int fields = 1;
    for (; *s != '\n'; s++)
        fields += *s == ' ';
    *end = s;
    return fields;
}

/* The answer to the line at s: 0 and the pair, or the number of the cause; its byte 10 is at *end. */
static int answer(const uint8_t *s, pair *result, const uint8_t **end)
{
    const uint8_t *at = s;
    pair pairs[3];
    if (*at == '\n')
        return *end = at, 12;
    bool inward = *at == 'I';
    if ((*at != 'O' && !inward) || at[1] != ' ')
        return count_fields(at, end) < 2 || *end - s > LONGEST ? 12 : 6;
    uint8_t op = at[2];
    if ((op != 'A' && op != 'S' && op != 'M' && op != 'D' && op != 'E') || (at[3] != ' ' && at[3] != '\n'))
        return count_fields(at, end), *end - s > LONGEST ? 12 : 6;
    if (at[3] == '\n')
        return *end = at + 3, 12;
    int wanted = op == 'E' ? 3 : 2;
    at += 3;
    for (int k = 0; k < wanted; k++) {
        const uint8_t *from = at + 1, *next = *at == ' ' ? read_pair(from, &pairs[k]) : NULL;
        if (*at == '\n')
            return *end = at, 12;
        int cause = !next || (*next != ' ' && *next != '\n') ? 1 : is_beyond(pairs[k]) ? 2 : 0;
        if (cause)
            return count_fields(from, end) != wanted - k || *end - s > LONGEST ? 12 : cause;
        at = next;
    }
    if (*at != '\n')
        return count_fields(at, end), 12;
    *end = at;
    if (at - s > LONGEST)
        return 12;
    pair a = pairs[0], b = pairs[1];
    switch (op) {
    case 'A': *result = sum(a, b); break;
    case 'S': *result = difference(a, b); break;
    case 'M': *result = product(inward, a, b); break;
    case 'D':
        if (holds_zero(b))
            return 5;
        *result = quotient(inward, a, b);
        break;
    default:
        if (holds_zero(b)) {
            int64_t end;
            int cause = held(b, (pair){pairs[2].lower - a.lower, pairs[2].upper - a.upper}, &end);
            if (cause)
                return cause;
            b = (pair){end, end};
        }
        *result = solution(inward, a, b, pairs[2]);
    }
    return is_beyond(*result) ? 4 : 0;
}

static uint8_t *write_line(uint32_t number, int cause, pair a, uint8_t *to)
{
    to = write_number(number, to);
    *to++ = ' ';
    if (cause) {
        *to++ = 'R', *to++ = ' ';
        to = write_number(cause, to);
    } else {
        to = write_pair(a, to);
    }
    *to++ = '\n';
    return to;
}

int main(void)
{
    static uint8_t in[8288], out[8000];
    uint32_t lines = 0;
    size_t held = 0;
    for (;;) {
        ssize_t got = read(0, in + held, sizeof in - held - 1);
        if (got < 0)
            return 1;
        size_t length = held + got, ended;
        if (got == 0 && length > 0)
            in[length++] = '\n';
        for (ended = length; ended > 0 && in[ended - 1] != '\n'; ended--)
            ;
        uint8_t *to = out;
        const uint8_t *at = in;
        while (at < in + ended && lines < MOST) {
            pair a = {0, 0};
            const uint8_t *end;
            int cause = answer(at, &a, &end);
            to = write_line(++lines, cause, a, to);
            at = end + 1;
            if (to > out + sizeof out - OUTPUT) {
                if (write(1, out, to - out) < 0)
                    return 1;
                to = out;
            }
        }
        if (to > out && write(1, out, to - out) < 0)
            return 1;
        if (got == 0 || lines == MOST)
            return 0;
        held = length - ended;
        if (held > LONGEST + 1) /* whatever follows, the line is too long */
            held = LONGEST + 1;
        memmove(in, in + ended, held);
    }
}
