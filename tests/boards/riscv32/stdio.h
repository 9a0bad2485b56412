/* What the test programs take of a C library, for riscv32, where the compiler comes with none: start.c has it. */
#ifndef BARE_STDIO_H
#define BARE_STDIO_H
#include <stddef.h>
int printf(const char *form, ...);
int snprintf(char *out, size_t room, const char *form, ...);
int scanf(const char *form, ...); /* the form "%127s" alone */
#define stdout 1
size_t fwrite(const void *from, size_t size, size_t count, int file);
#endif
