/* A call of a function with up to ten whole numbers or pointers, on a stack that was painted: how deep it wrote. x86-64, System V. See tools/embedding. */
#include <stddef.h>
#include <stdint.h>
#include <string.h>

enum { ROOM = 1 << 16, PAINT = 0xa5, ON_STACK = 32 };

static uint8_t room[ROOM] __attribute__((aligned(16)));

/* Six arguments in registers, four on the stack behind `top`, whether the function takes them or not. */
uint64_t on_stack(void *function, const uint64_t *words, uint8_t *top);
__asm__(".text\n"
        "on_stack:\n"
        "push %rbx\n"
        "mov %rsp, %rbx\n"
        "mov %rdx, %rsp\n"
        "mov %rdi, %rax\n"
        "mov %rsi, %r10\n"
        "push 72(%r10)\n"
        "push 64(%r10)\n"
        "push 56(%r10)\n"
        "push 48(%r10)\n"
        "mov 0(%r10), %rdi\n"
        "mov 8(%r10), %rsi\n"
        "mov 16(%r10), %rdx\n"
        "mov 24(%r10), %rcx\n"
        "mov 32(%r10), %r8\n"
        "mov 40(%r10), %r9\n"
        "call *%rax\n"
        "mov %rbx, %rsp\n"
        "pop %rbx\n"
        "ret\n");

/* The bytes below the caller's stack pointer that the call wrote, its return address among them. */
size_t painted(void *function, const uint64_t *words) {
    memset(room, PAINT, ROOM);
    on_stack(function, words, room + ROOM);
    size_t at = 0;
    while (at < ROOM && room[at] == PAINT) {
        at++;
    }
    return ROOM - ON_STACK - at;
}
