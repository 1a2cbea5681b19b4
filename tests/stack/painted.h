/* A stack of its own for a call, painted before: what is still painted then, the call didn't reach. The stack is
 * changed by hand, so that nothing else stands there; the archive is for x86-64, and so is this. */
#ifndef PAINTED_H
#define PAINTED_H

#include <stddef.h>
#include <stdint.h>

#define PAINTED_PLACES 8192
#define PAINT UINT64_C(0xa5a5a5a5a5a5a5a5)

static _Alignas(16) uint64_t painted_stack[PAINTED_PLACES];

/* The bytes that a call takes of the stack, its return address included; stores what it returns. */
static size_t taken(uint64_t (*call)(void), uint64_t *returned) {
    for (size_t i = 0; i < PAINTED_PLACES; i++) {
        painted_stack[i] = PAINT;
    }
    __asm__ volatile("mov %%rsp, %%rbx\n\t"
                     "mov %1, %%rsp\n\t"
                     "call *%2\n\t"
                     "mov %%rbx, %%rsp"
                     : "=a"(*returned)
                     : "r"(painted_stack + PAINTED_PLACES), "r"(call)
                     : "rbx", "rcx", "rdx", "rsi", "rdi", "r8", "r9", "r10", "r11", "xmm0", "xmm1", "xmm2", "xmm3",
                       "xmm4", "xmm5", "xmm6", "xmm7", "xmm8", "xmm9", "xmm10", "xmm11", "xmm12", "xmm13", "xmm14",
                       "xmm15", "cc", "memory");
    size_t untouched = 0;
    while (untouched < PAINTED_PLACES && painted_stack[untouched] == PAINT) {
        untouched++;
    }
    return (PAINTED_PLACES - untouched) * sizeof painted_stack[0];
}

#endif
