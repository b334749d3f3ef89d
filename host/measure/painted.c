/* Makes each call that it reads on a painted stack of its own and prints how much of it the call used: a line with the
   name, the bytes of stack and the call's answer. Everything that a call puts on the stack counts: arguments that have
   no register, the return address, and all below them.
   The system call `getppid` before and after is a mark, between which `counter.c` counts instructions. The first two
   have an empty function between them. The stack ends where a page does, so the counts are the same each time. */
#include "calls.h"
#include <stdio.h>
#include <string.h>
#include <unistd.h>

enum { PAINT = 0xc5, STACK = 64 * 1024, IN_REGISTERS = 6 };

/* Where there is a seventh or eighth argument both have a place, since the stack is kept even. */
enum { ON_STACK = (WORDS - IN_REGISTERS) * sizeof(uint64_t) };

/* Calls a function with eight words, on the stack that ends at `top`. */
uint64_t call_on(const void *function, const uint64_t *words, void *top);
__asm__(".pushsection .text\n"
        ".globl call_on\n"
        "call_on:\n"
        "    push %rbp\n"
        "    mov %rsp, %rbp\n"
        "    mov %rdx, %rsp\n"
        "    mov %rdi, %rax\n"
        "    mov %rsi, %r10\n"
        "    push 56(%r10)\n"
        "    push 48(%r10)\n"
        "    mov (%r10), %rdi\n"
        "    mov 8(%r10), %rsi\n"
        "    mov 16(%r10), %rdx\n"
        "    mov 24(%r10), %rcx\n"
        "    mov 32(%r10), %r8\n"
        "    mov 40(%r10), %r9\n"
        "    call *%rax\n"
        "    mov %rbp, %rsp\n"
        "    pop %rbp\n"
        "    ret\n"
        ".popsection\n");

/* Does nothing but return: one instruction. */
void empty(void);
__asm__(".pushsection .text\n"
        ".globl empty\n"
        "empty:\n"
        "    ret\n"
        ".popsection\n");

static _Alignas(4096) unsigned char stack[STACK];

/* Kept out of line, so that the instructions around a call are the same each time. */
__attribute__((noinline)) static uint64_t make(const struct call *call) {
    memset(stack, PAINT, STACK);
    getppid();
    uint64_t answer = call_on(call->function, call->words, stack + STACK);
    getppid();
    return answer;
}

static size_t used(const struct call *call) {
    size_t untouched = 0;
    while (stack[untouched] == PAINT) {
        untouched++;
    }
    return STACK - untouched - (call->count > IN_REGISTERS ? 0 : ON_STACK);
}

int main(void) {
    struct call call = {.function = empty};
    make(&call);
    while (next_call(&call)) {
        uint64_t answer = make(&call);
        printf("%s %zu %llu\n", call.name, used(&call), (unsigned long long)answer);
    }
    return 0;
}
