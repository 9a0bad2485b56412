/* The start of a test program on riscv32 under qemu-riscv32, with three calls of Linux, and what the programs take of a C library. */
#include <stdarg.h>
#include <stdint.h>
#include <stdio.h>
#include <stdlib.h>
#include <string.h>

int main(int count, char **words);

enum { READ = 63, WRITE = 64, EXIT = 93 };
static long linux_call(long what, long a, const void *b, long c) {
    register long a7 __asm__("a7") = what, a0 __asm__("a0") = a, a2 __asm__("a2") = c;
    register const void *a1 __asm__("a1") = b;
    __asm__ volatile("ecall" : "+r"(a0) : "r"(a7), "r"(a1), "r"(a2) : "memory");
    return a0;
}

/* the kernel leaves the count of words and the words from the stack pointer on */
__asm__(".globl _start\n_start:\n .option push\n .option norelax\n la gp, __global_pointer$\n .option pop\n mv a0, sp\n andi sp, sp, -16\n call begin");
__attribute__((used)) _Noreturn void begin(long *from) { exit(main((int)*from, (char **)(from + 1))); }

static char said[4096];
static size_t held;
static void flush(void) {
    linux_call(WRITE, 1, said, (long)held);
    held = 0;
}
static void put(char byte) {
    if (held == sizeof said) flush();
    said[held++] = byte;
}
_Noreturn void exit(int status) {
    flush();
    for (;;) linux_call(EXIT, status, 0, 0);
}
size_t fwrite(const void *from, size_t size, size_t count, int file) {
    (void)file;
    for (size_t i = 0; i < size * count; i++) put(((const char *)from)[i]);
    return count;
}

/* %[-][0][width][ll](d, u, X or s), and what stands between; to memory where `out`, else to standard output */
static int print(char *out, size_t room, const char *form, va_list with) {
    size_t size = 0;
#define PUT(byte) (out ? (void)(size + 1 < room ? (out[size] = (byte)) : 0) : put(byte), size++)
    for (; *form; form++) {
        if (*form != '%') {
            PUT(*form);
            continue;
        }
        int left = 0, zeros = 0, wide = 0, longer = 0;
        size_t width = 0;
        char digits[24], *text = digits + 23;
        if (*++form == '-') left = 1, form++;
        if (*form == '0') zeros = 1, form++;
        while (*form >= '0' && *form <= '9') width = 10 * width + (size_t)(*form++ - '0');
        while (*form == 'l') longer++, form++;
        wide = longer == 2;
        *text = 0;
        if (*form == 's') {
            text = va_arg(with, char *);
        } else {
            uint64_t number = wide ? va_arg(with, uint64_t) : va_arg(with, unsigned);
            unsigned base = *form == 'X' ? 16 : 10;
            int below = *form == 'd' && (int32_t)number < 0;
            if (below) number = (uint32_t)-(uint32_t)number;
            do *--text = "0123456789ABCDEF"[number % base];
            while (number /= base);
            if (below) *--text = '-';
        }
        size_t own = strlen(text);
        for (size_t i = own; !left && i < width; i++) PUT(zeros ? '0' : ' ');
        for (size_t i = 0; i < own; i++) PUT(text[i]);
        for (size_t i = own; left && i < width; i++) PUT(' ');
    }
    if (out && room > 0) out[size < room ? size : room - 1] = 0;
    return (int)size;
}
int printf(const char *form, ...) {
    va_list with;
    va_start(with, form);
    int size = print(0, 0, form, with);
    va_end(with);
    return size;
}
int snprintf(char *out, size_t room, const char *form, ...) {
    va_list with;
    va_start(with, form);
    int size = print(out, room, form, with);
    va_end(with);
    return size;
}
int scanf(const char *form, ...) {
    va_list with;
    va_start(with, form);
    char *out = va_arg(with, char *), byte;
    va_end(with);
    int size = 0;
    while (size < 127 && linux_call(READ, 0, &byte, 1) == 1) {
        if (byte > ' ') out[size++] = byte;
        else if (size > 0) break;
    }
    out[size] = 0;
    return size > 0 ? 1 : -1;
}
unsigned long strtoul(const char *text, char **end, int base) {
    (void)end, (void)base;
    unsigned long value = 0;
    while (*text >= '0' && *text <= '9') value = 10 * value + (unsigned long)(*text++ - '0');
    return value;
}

void *memcpy(void *to, const void *from, size_t size) {
    for (size_t i = 0; i < size; i++) ((uint8_t *)to)[i] = ((const uint8_t *)from)[i];
    return to;
}
void *memmove(void *to, const void *from, size_t size) {
    if ((uintptr_t)to <= (uintptr_t)from) return memcpy(to, from, size);
    while (size--) ((uint8_t *)to)[size] = ((const uint8_t *)from)[size];
    return to;
}
void *memset(void *to, int with, size_t size) {
    for (size_t i = 0; i < size; i++) ((uint8_t *)to)[i] = (uint8_t)with;
    return to;
}
int memcmp(const void *one, const void *other, size_t size) {
    const uint8_t *a = one, *b = other;
    for (size_t i = 0; i < size; i++) {
        if (a[i] != b[i]) return a[i] - b[i];
    }
    return 0;
}
size_t strlen(const char *text) {
    size_t size = 0;
    while (text[size]) size++;
    return size;
}
int strcmp(const char *one, const char *other) {
    while (*one && *one == *other) one++, other++;
    return (uint8_t)*one - (uint8_t)*other;
}
