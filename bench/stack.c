/* The stack that one call of dzb_list, of dzb_list_within and of dzb_burnin_list takes: the most over every list of a file (bench/lists), run on a
 * painted stack, less what a call of nothing takes; the last one over lists of 64 steps, each on the value of the one before, too.
 * Usage: stack FILE */
#include "../include/donzibrau.h"
#include <stdio.h>
#include <string.h>
#include <ucontext.h>

enum { ROOM = 1 << 16, PAINT = 0xa5, MOST = 1 << 10 };

static uint8_t stack[ROOM], list[MOST];
static size_t length;
static dzb_pair result;
static ucontext_t here, there;

static void nothing(void) { __asm__ volatile(""); }
static void slip(void) { dzb_list(list, length, DZB_INWARD, result); }
static void fare(void) { dzb_list_within(list, length, DZB_INWARD, 6, 20, result); }
static void burnin(void) { dzb_burnin_list(list, length, DZB_INWARD, DZB_LIST_VALUES, DZB_LIST_STEPS, result); }

static size_t taken(void (*call)(void))
{
    memset(stack, PAINT, ROOM);
    getcontext(&there);
    there.uc_stack.ss_sp = stack;
    there.uc_stack.ss_size = ROOM;
    there.uc_link = &here;
    makecontext(&there, call, 0);
    swapcontext(&here, &there);
    size_t at = 0;
    while (at < ROOM && stack[at] == PAINT)
        at++;
    return ROOM - at;
}

static size_t larger(size_t a, size_t b) { return a > b ? a : b; }

/* A first step of `code` on one or two constants, and 64 steps in all. */
static size_t deepest(uint8_t code, size_t constants)
{
    memset(list, 0, sizeof list);
    for (size_t i = 0; i < constants; i++)
        list[9 * i + 1] = list[9 * i + 5] = 1;
    length = 9 * constants + DZB_LIST_STEPS - constants;
    memset(list + 9 * constants, 6, DZB_LIST_STEPS - constants);
    list[9 * constants] = code;
    return taken(burnin);
}

int main(int count, char **words)
{
    FILE *file = count > 1 ? fopen(words[1], "rb") : NULL;
    size_t none = taken(nothing), most = 0, least = 0, deep = larger(deepest(6, 1), deepest(9, 2)) - none;
    if (!file)
        return 1;
    for (int low; (low = getc(file)) != EOF;) {
        length = low + 256 * (size_t)getc(file);
        if (length > MOST || fread(list, 1, length, file) != length)
            return 1;
        size_t a = taken(slip) - none, b = taken(fare) - none;
        most = larger(a, most);
        least = larger(b, least);
        deep = larger(taken(burnin) - none, deep);
    }
    printf("%zu %zu %zu\n", most, least, deep);
}
