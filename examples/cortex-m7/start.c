/* The start of a Cortex-M7 or M4F without operating system: floating point, memory, main; output by semihosting; and what compiled code
 * calls beside libgcc. */
#include <stddef.h>
#include <stdint.h>

extern uint32_t data_start[], data_end[], data_load[], bss_start[], bss_end[], stack_top[];
int main(void);

/* Semihosting: 4 writes a string, 0x18 ends the run. */
static void host(long what, const void *with) {
    register long r0 __asm__("r0") = what;
    register const void *r1 __asm__("r1") = with;
    __asm__ volatile("bkpt 0xAB" : "+r"(r0) : "r"(r1) : "memory");
}
void say(const char *text) { host(4, text); }
static _Noreturn void stop(int status) {
    for (;;) host(0x18, (const void *)(status == 0 ? 0x20026 : 0x20023)); /* an exit; an error at run time */
}

/* The floating point unit is off after reset: CPACR allows it before any compiled code runs, which may keep floats in its prologue. */
__attribute__((naked)) void reset(void) {
    __asm__ volatile("ldr r0, =0xE000ED88\n ldr r1, [r0]\n orr r1, r1, #0xF00000\n str r1, [r0]\n dsb\n isb\n bl begin\n b .");
}
__attribute__((used)) _Noreturn void begin(void) {
    /* FPSCR as the library needs it: to nearest, subnormals kept (FZ, bit 24, is 0), no trap. It is so after reset. An interrupt that
     * uses floats starts from FPDSCR, which must be the same. */
    uint32_t fpscr = 0;
    __asm__ volatile("vmsr fpscr, %0" : : "r"(fpscr));
    for (uint32_t *to = data_start, *from = data_load; to < data_end;) *to++ = *from++;
    for (uint32_t *to = bss_start; to < bss_end;) *to++ = 0;
    stop(main());
}
static void fault(void) {
    say("fault\n");
    stop(1);
}

__attribute__((section(".vectors"), used)) static const void *const vectors[16] = {stack_top, (void *)reset, (void *)fault, (void *)fault,
                                                                                   (void *)fault, (void *)fault, (void *)fault};

/* Arm's compilers call memory functions by names of their own, aligned or not. */
void *memcpy(void *to, const void *from, size_t size) {
    for (size_t i = 0; i < size; i++) ((uint8_t *)to)[i] = ((const uint8_t *)from)[i];
    return to;
}
void *memset(void *to, int with, size_t size) {
    for (size_t i = 0; i < size; i++) ((uint8_t *)to)[i] = (uint8_t)with;
    return to;
}
void __aeabi_memcpy(void *to, const void *from, size_t size) { memcpy(to, from, size); }
void __aeabi_memcpy4(void *to, const void *from, size_t size) { memcpy(to, from, size); }
void __aeabi_memcpy8(void *to, const void *from, size_t size) { memcpy(to, from, size); }
void __aeabi_memset(void *to, size_t size, int with) { memset(to, with, size); }
void __aeabi_memset4(void *to, size_t size, int with) { memset(to, with, size); }
void __aeabi_memset8(void *to, size_t size, int with) { memset(to, with, size); }
void __aeabi_memclr(void *to, size_t size) { memset(to, 0, size); }
void __aeabi_memclr4(void *to, size_t size) { memset(to, 0, size); }
void __aeabi_memclr8(void *to, size_t size) { memset(to, 0, size); }
