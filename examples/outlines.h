/* Reads outlines for the programs of this folder: one to a line, its points as x and y in metres, apart by blanks. */

#ifndef OUTLINES_H
#define OUTLINES_H

#include <stdio.h>
#include <stdlib.h>

#include "kihavute.h"

/* what the library takes at most, and the text of a line with so many numbers */
#define MOST_NUMBERS 8192
#define MOST_TEXT (16 * MOST_NUMBERS)

struct outline {
    float numbers[MOST_NUMBERS];
    size_t len;
};

/* the next line of standard input; 0 where there is none, or what stands there is no outline */
static int read_outline(struct outline *outline) {
    static char text[MOST_TEXT];
    outline->len = 0;
    if (fgets(text, sizeof text, stdin) == NULL) return 0;
    for (char *at = text, *end;; at = end) {
        float number = strtof(at, &end);
        if (end == at) return *at == '\n' && outline->len > 0 && outline->len % 2 == 0;
        if (outline->len == MOST_NUMBERS) return 0;
        outline->numbers[outline->len++] = number;
    }
}

/* two outlines of standard input, or the program ends */
static void read_two(struct outline *before, struct outline *after) {
    if (read_outline(before) && read_outline(after)) return;
    fprintf(stderr, "two lines with x and y of each point are due\n");
    exit(2);
}

/* how many points the larger of two outlines has */
static inline size_t larger(const struct outline *one, const struct outline *other) {
    return (one->len < other->len ? other->len : one->len) / 2;
}

/* ends the program where a call is refused */
static void accepted(uint32_t number, const uint64_t *answer) {
    if (number == 0) return;
    fprintf(stderr, "refused with %u, %llu %llu\n", (unsigned)number, (unsigned long long)answer[0], (unsigned long long)answer[1]);
    exit(1);
}

#endif
