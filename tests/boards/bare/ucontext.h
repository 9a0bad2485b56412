/* What tests/c/stack.c takes of <ucontext.h>, for a processor whose C library has none: a function is called on a stack of its own. */
#ifndef BARE_UCONTEXT_H
#define BARE_UCONTEXT_H
#include <stddef.h>
#include <stdint.h>

typedef struct ucontext {
    void (*called)(void);
    struct {
        void *ss_sp;
        size_t ss_size;
    } uc_stack;
    struct ucontext *uc_link;
} ucontext_t;

static inline int getcontext(ucontext_t *context) {
    (void)context;
    return 0;
}
static inline void makecontext(ucontext_t *context, void (*called)(void), int count) {
    (void)count;
    context->called = called;
}
/* the callee keeps the register in which the caller's stack pointer is held meanwhile */
static __attribute__((noinline)) void swapcontext(ucontext_t *here, ucontext_t *there) {
    (void)here;
    uintptr_t top = ((uintptr_t)there->uc_stack.ss_sp + there->uc_stack.ss_size) & ~(uintptr_t)15;
#if defined(__arm__)
    __asm__ volatile("mov r4, sp\n mov sp, %0\n blx %1\n mov sp, r4"
                     : : "r"(top), "r"(there->called)
                     : "r0", "r1", "r2", "r3", "r4", "r12", "lr", "memory", "cc", "s0", "s1", "s2", "s3", "s4", "s5", "s6", "s7", "s8", "s9",
                       "s10", "s11", "s12", "s13", "s14", "s15");
#elif defined(__riscv)
    __asm__ volatile("mv s1, sp\n mv sp, %0\n jalr %1\n mv sp, s1"
                     : : "r"(top), "r"(there->called)
                     : "ra", "s1", "t0", "t1", "t2", "t3", "t4", "t5", "t6", "a0", "a1", "a2", "a3", "a4", "a5", "a6", "a7", "memory"
#if defined(__riscv_flen)
                     , "ft0", "ft1", "ft2", "ft3", "ft4", "ft5", "ft6", "ft7", "ft8", "ft9", "ft10", "ft11", "fa0", "fa1", "fa2", "fa3", "fa4",
                       "fa5", "fa6", "fa7"
#endif
    );
#else
#error "no other processor needs this file"
#endif
}
#endif
