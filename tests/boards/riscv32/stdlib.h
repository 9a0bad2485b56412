#ifndef BARE_STDLIB_H
#define BARE_STDLIB_H
#include <stddef.h>
_Noreturn void exit(int status);
unsigned long strtoul(const char *text, char **end, int base); /* decimal digits alone */
#endif
