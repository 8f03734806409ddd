/* The library with no C library: its own memcpy and memset, no start files, a write by the kernel's number. Built and run by tests/embedding:
 *   cc -std=c99 -O2 -ffreestanding -fno-builtin -nostdlib -static -Iinclude examples/bare.c target/staticlib/libcapi.a
 * Prints the count of the box in docs/CLERK.md. On a board, _start is the reset handler and `put` the serial line. */
#include "donzibrau.h"

void *memcpy(void *restrict to, const void *restrict from, size_t count) {
    for (size_t i = 0; i < count; i++) {
        ((uint8_t *)to)[i] = ((const uint8_t *)from)[i];
    }
    return to;
}

void *memset(void *to, int value, size_t count) {
    for (size_t i = 0; i < count; i++) {
        ((uint8_t *)to)[i] = (uint8_t)value;
    }
    return to;
}

static void put(const uint8_t *bytes, size_t count) {
    long result;
    __asm__ volatile("syscall" : "=a"(result) : "a"(1L), "D"(1L), "S"(bytes), "d"(count) : "rcx", "r11", "memory");
    (void)result;
}

static void leave(void) {
    __asm__ volatile("syscall" : : "a"(60L), "D"(0L));
    for (;;) {
    }
}

/* The stack is 16 bytes aligned at a call, as the calling convention has it; at the start it may not be. */
__attribute__((force_align_arg_pointer)) void _start(void) {
    static const uint8_t line[] = "I E [100,100] [4.9,5.1] [580,620]";
    uint8_t text[DZB_TEXT_BYTES + 1];
    dzb_pair count;
    size_t length = 0;
    if (dzb_line(line, sizeof line - 1, count) == DZB_DONE && dzb_write(count[0], count[1], text, DZB_TEXT_BYTES, &length) == DZB_DONE) {
        text[length] = '\n';
        put(text, length + 1);
    }
    leave();
}
