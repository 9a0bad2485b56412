/* Builds plans on the board, flies them, and prints the bits of the answers and the stack that a call took. The same source compiled
 * with -DHOST prints the same lines but those of the stack, which begin with a space: `run` compares the rest byte by byte. It needs no
 * C library. */
#include "kihavute.h"

void say(const char *text);
#ifdef HOST
#include <stdio.h>
void say(const char *text) { fputs(text, stdout); }
#else
extern uint8_t stack_low[];
#endif

enum { SEGMENTS = 1024, LISTING = 69632, PAINT = 0xA5 };
static uint8_t kinds[SEGMENTS], text[65536], listing[LISTING + 1]; /* and a 0 behind it */
static float fields[11 * SEGMENTS], tables[33 * SEGMENTS], lengths[SEGMENTS];
static uint32_t commands[SEGMENTS];
static uint64_t answer[8];
static kihavute_count size, counts[5];
static float progress;
static uint32_t refusal;

static void hex(uint64_t value, int digits) {
    char out[20];
    out[digits] = ' ', out[digits + 1] = 0;
    for (int i = digits - 1; i >= 0; i--, value >>= 4) out[i] = "0123456789ABCDEF"[value & 15];
    say(out);
}

/* ---- the stack of a call: what it wrote to below its caller's stack pointer */

#ifdef HOST
static void measured(const char *name, void (*call)(void)) {
    (void)name;
    call();
}
#else
static void decimal(uint32_t value) {
    char out[12];
    int at = 11;
    out[at] = 0;
    do out[--at] = (char)('0' + value % 10);
    while (value /= 10);
    say(out + at);
}
static __attribute__((noinline)) void measured(const char *name, void (*call)(void)) {
    volatile uint8_t *top, *low = stack_low;
    __asm__ volatile("mov %0, sp" : "=r"(top));
    for (volatile uint8_t *p = low; p < top; p++) *p = PAINT;
    call();
    while (low < top && *low == PAINT) low++;
    say(" "), say(name), say(" takes "), decimal((uint32_t)(top - low)), say(" bytes of stack\n");
}
#endif

static void number(void) { refusal = kihavute_number(text, size, answer, 8); }
static void build(void) {
    refusal = kihavute_build_text(text, size, kinds, SEGMENTS, fields, 11 * SEGMENTS, tables, 33 * SEGMENTS, lengths, SEGMENTS, commands,
                                  SEGMENTS, answer, 8);
}
static void flight(void) {
    refusal = kihavute_flight(kinds, counts[0], fields, counts[1], tables, counts[2], lengths, counts[3], commands, counts[4], progress,
                              answer, 8);
}
static void stations(void) { refusal = kihavute_stations(text, size, listing, LISTING, answer, 8); }

static void add(const char *part) {
    while (*part) text[size++] = (uint8_t)*part++;
}
static void print(const char *what, int places) {
    say(what), say(" "), hex(refusal, 2);
    for (int i = 0; i < places; i++) hex(answer[i], 16);
    say("\n");
}

int main(void) {
    if (!kihavute_floats_right()) {
        say("floats are flushed or rounded otherwise: no answer holds\n");
        return 1;
    }
    /* a number of 60,000 digits, just above the middle of two floats */
    size = 0, add("1.000000059604644775390625");
    while (size < 60000) add("0");
    add("1");
    measured("kihavute_number, 60,000 digits,", number), print("number", 1);

    static const char *const plans[] = {
        "M0 0 H30 V40",
        "M0 0l9 0H20v9C20 20 9 20 9 9s1 2 3 4Q5 5 0 9t1 2A5 5 0 0 1-9 9A0 1 0 0 1-9 8Z",
        "M0 0Q2e12 0 2e12 2e12C0 9e12 1 2 3 4l5 6A5 5 0 0 1 9 9",
        "M1e-45 0L3e-39-7e-41 1.1754944e-38 9e-40",
        "M0 0L1e",
    };
    for (unsigned k = 0; k < sizeof plans / sizeof *plans; k++) {
        size = 0, add(plans[k]);
        measured("kihavute_build_text", build), print(plans[k], 5);
        if (refusal != KIHAVUTE_ACCEPTED) continue;
        for (int i = 0; i < 5; i++) counts[i] = answer[i];
        for (int i = 0; i <= 64; i++) {
            progress = (float)i / 64;
            if (i == 32) measured("kihavute_flight", flight);
            else flight();
            print("flight", 6);
        }
        size = 0, add("100\n"), add(plans[k]);
        measured("kihavute_stations", stations), print("stations", 1);
        listing[answer[0]] = 0;
        say((const char *)listing);
    }
    return 0;
}
