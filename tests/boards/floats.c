/* Sets each other rounding, and the flushing of subnormals, in this processor's register, and looks whether kihavute_floats_right of
 * the header notices. A processor without such a register, or without flushing, has fewer rows. tests/c/run and tests/boards/run
 * compile and run it. */
#include <stdio.h>

#include "kihavute.h"

#if defined(__x86_64__)
static uint32_t held(void) { return __builtin_ia32_stmxcsr(); }
static void hold(uint32_t bits) { __builtin_ia32_ldmxcsr(bits); }
enum { DOWN = 1 << 13, UP = 2 << 13, TO_ZERO = 3 << 13, FLUSH = 1 << 15 | 1 << 6 };
#elif defined(__aarch64__)
static uint32_t held(void) {
    uint64_t bits;
    __asm__ volatile("mrs %0, fpcr" : "=r"(bits));
    return (uint32_t)bits;
}
static void hold(uint32_t bits) { __asm__ volatile("msr fpcr, %0" : : "r"((uint64_t)bits) : "memory"); }
enum { UP = 1 << 22, DOWN = 2 << 22, TO_ZERO = 3 << 22, FLUSH = 1 << 24 };
#elif defined(__arm__)
static uint32_t held(void) {
    uint32_t bits;
    __asm__ volatile("vmrs %0, fpscr" : "=r"(bits));
    return bits;
}
static void hold(uint32_t bits) { __asm__ volatile("vmsr fpscr, %0" : : "r"(bits) : "memory"); }
enum { UP = 1 << 22, DOWN = 2 << 22, TO_ZERO = 3 << 22, FLUSH = 1 << 24 };
#elif defined(__riscv_flen)
static uint32_t held(void) {
    uint32_t bits;
    __asm__ volatile("frrm %0" : "=r"(bits));
    return bits;
}
static void hold(uint32_t bits) { __asm__ volatile("fsrm %0" : : "r"(bits) : "memory"); }
enum { TO_ZERO = 1, DOWN = 2, UP = 3, FLUSH = 0 };
#else
static uint32_t held(void) { return 0; }
static void hold(uint32_t bits) { (void)bits; }
enum { TO_ZERO = 0, DOWN = 0, UP = 0, FLUSH = 0 };
#endif

static int rows, wrong;
static void look(const char *what, uint32_t bits, int due) {
    if (bits == 0 && !due) return; /* this processor has no such setting */
    uint32_t before = held();
    hold(before | bits);
    int found = kihavute_floats_right();
    hold(before);
    rows++;
    if (found == due) return;
    wrong++;
    printf("  %s: kihavute_floats_right gives %d\n", what, found);
}

int main(void) {
    look("as the program starts", 0, 1);
    look("rounding up", UP, 0);
    look("rounding down", DOWN, 0);
    look("rounding towards 0", TO_ZERO, 0);
    look("flushing subnormals", FLUSH, 0);
    look("as before", 0, 1);
    printf("settings of floats: %d passed, %d failed\n", rows - wrong, wrong);
    return wrong != 0;
}
