/* Calls the function of include/autopilot.h from C, on paths that kihavute.h builds, and compares bits. tests/c/run compiles and
 * runs it, linked with both libraries in either order. */

#include <stdio.h>
#include <string.h>

#include "autopilot.h"

enum { SEGMENTS = 64, LEGS = 3 * 1024 + 64, UNTOUCHED = 0x12345678 };

static int passed, failed;
static uint8_t kinds[SEGMENTS];
static float fields[11 * SEGMENTS], tables[33 * SEGMENTS], lengths[SEGMENTS], out[4 * LEGS];
static uint32_t commands[SEGMENTS];
static uint64_t answer[8];
static size_t segments, numbers, entries;

static uint32_t bits(float x) {
    uint32_t pattern;
    memcpy(&pattern, &x, sizeof pattern);
    return pattern;
}

static void same(const char *what, uint64_t found, uint64_t due) {
    if (found == due) {
        passed++;
    } else {
        failed++;
        printf("  %s: found %llX, due %llX\n", what, (unsigned long long)found, (unsigned long long)due);
    }
}

static void build(const char *text) {
    same(text, kihavute_build_text((const uint8_t *)text, strlen(text), kinds, SEGMENTS, fields, 11 * SEGMENTS, tables, 33 * SEGMENTS, lengths,
                                   SEGMENTS, commands, SEGMENTS, answer, 8), 0);
    segments = answer[0];
    numbers = answer[1];
    entries = answer[2];
}

static uint32_t legs_into(float distance, size_t room, size_t places) {
    for (size_t k = 0; k < 4 * LEGS; k++) out[k] = kihavute_float(UNTOUCHED);
    for (size_t k = 0; k < 8; k++) answer[k] = 77;
    return autopilot_legs(kinds, segments, fields, numbers, tables, entries, lengths, segments, commands, segments, distance, out, room, answer,
                          places);
}

/* from this number on nothing is written */
static void untouched(const char *what, size_t from) {
    size_t written = 0;
    for (size_t k = from; k < 4 * LEGS; k++) written += bits(out[k]) != UNTOUCHED;
    same(what, written, 0);
}

/* accepted with so many legs and this flag; of the answer two places are written, and of out the legs' numbers */
static void flown(const char *what, float distance, size_t legs, int far) {
    same(what, legs_into(distance, 4 * LEGS, 8), 0);
    same(what, answer[0], legs);
    same(what, answer[1], (uint64_t)far);
    for (size_t k = 2; k < 8; k++) same(what, answer[k], 77);
    untouched(what, 4 * legs);
    /* as many places as are due are enough, and three more are no leg's */
    same(what, legs_into(distance, 4 * legs, 8), 0);
    same(what, legs_into(distance, 4 * legs + 3, 8), 0);
    if (legs == 0) return;
    same(what, legs_into(distance, 4 * legs - 1, 8), KIHAVUTE_NO_ROOM);
    same(what, answer[0], legs);
    same(what, answer[1], 77);
    untouched(what, 0);
    legs_into(distance, 4 * LEGS, 8);
}

static void refused(const char *what, float distance, size_t room, uint32_t number, uint64_t carried) {
    same(what, legs_into(distance, room, 8), number);
    same(what, answer[0], carried);
    same(what, answer[1], 77);
    untouched(what, 0);
}

/* a leg's four numbers */
static void leg(const char *what, size_t number, float ax, float ay, float bx, float by) {
    const float due[4] = {ax, ay, bx, by};
    for (size_t k = 0; k < 4; k++) same(what, bits(out[4 * number + k]), bits(due[k]));
}

/* each leg from one number to another starts where the one before ends */
static void joined(const char *what, size_t from, size_t to) {
    for (size_t k = from + 1; k < to; k++) {
        same(what, bits(out[4 * k]), bits(out[4 * k - 2]));
        same(what, bits(out[4 * k + 1]), bits(out[4 * k - 1]));
    }
}

static void lines(void) {
    build("");
    flown("no segment", 1, 0, 0);
    build("M1 2L3 4L3 4M10 20H30Z");
    flown("lines", 1, 4, 0);
    leg("a line", 0, 1, 2, 3, 4);
    leg("a line of length 0", 1, 3, 4, 3, 4);
    leg("after a moveto", 2, 10, 20, 30, 20);
    leg("the way back", 3, 30, 20, 10, 20);
    build("M0 0A0 5 0 0 1 7 8");
    flown("an arc that is a line fallback", 1, 1, 0);
    leg("an arc that is a line fallback", 0, 0, 0, 7, 8);
}

static void arcs(void) {
    static const float distances[] = {1e-30f, 0.5f, 1e30f};
    build("M0 0A10 10 0 1 1 3 4M100 100L1 1");
    for (size_t k = 0; k < 3; k++) {
        flown("an arc at any distance", distances[k], 32, 0);
        joined("an arc's legs", 0, 31);
        same("an arc's start", bits(out[0]) | bits(out[1]), 0);
        same("an arc's end", bits(out[122]), bits(3));
        same("an arc's end", bits(out[123]), bits(4));
        leg("after an arc", 31, 100, 100, 1, 1);
    }
    /* the stored ends are kept where the samples lie elsewhere: another end, and another start */
    fields[2] = 500;
    fields[1] = -700;
    flown("an arc that misses its ends", 1, 32, 0);
    same("its start", bits(out[1]), bits(-700));
    same("its end", bits(out[122]), bits(500));
    joined("its legs", 0, 31);
}

static void curves(void) {
    build("M0 0Q1 1 2 0");
    flown("a quad within a quarter", 0.25f, 2, 0);
    leg("its first half", 0, 0, 0, 1, 0.5f);
    leg("its second half", 1, 1, 0.5f, 2, 0);
    flown("a quad within its height", 1, 1, 0);
    flown("the float below", kihavute_float(0x3F7FFFFF), 2, 0);
    build("M0 0C0 1 2 1 2 0M5 5Q6 6 7 5");
    flown("a cubic and a quad", 1, 2, 0);
    flown("a cubic and a quad, nearer", 0.25f, 6, 0);
    leg("the cubic's first quarter", 0, 0, 0, 0.3125f, 0.5625f);
    leg("the cubic's second quarter", 1, 0.3125f, 0.5625f, 1, 0.75f);
    leg("the quad's second half", 5, 6, 5.5f, 7, 5);
    /* ten halvings */
    flown("too near", 1e-30f, 2048, 1);
    joined("1,024 legs", 0, 1024);
    joined("1,024 legs", 1024, 2048);
    leg("the quad's last leg ends at its end", 2047, out[8188], out[8189], 7, 5);
    /* the chord is a segment: a control behind the start, and one behind the end */
    build("M0 0Q-3 0 10 0");
    flown("a control before the start", 3, 1, 0);
    flown("a control before the start, nearer", 2.9f, 2, 0);
    build("M0 0Q13 0 10 0");
    flown("a control after the end", 3, 1, 0);
    flown("a control after the end, nearer", 2.9f, 2, 0);
    /* a chord of length 0 counts as its start, also where its square underflows */
    build("M5 5Q5 8 5 5");
    flown("a loop", 3, 1, 0);
    flown("a loop, nearer", 2.9f, 2, 0);
}

static void distances(void) {
    static const uint32_t nans[] = {0x7FC00000, 0xFFC00000, 0x7F800001, 0xFF800001, 0x7FFFFFFF, 0xFFFFFFFF, 0x7FA00000, 0xFF812345};
    static const uint32_t wrong[] = {0, 0x80000000, 0xBF800000, 0x80000001, 0x7F800000, 0xFF800000};
    build("M0 0Q1 0 2 0");
    for (size_t k = 0; k < 6; k++) refused("a distance that is none", kihavute_float(wrong[k]), 4 * LEGS, KIHAVUTE_RANGE, wrong[k]);
    for (size_t k = 0; k < 8; k++) refused("a NaN as distance", kihavute_float(nans[k]), 4 * LEGS, KIHAVUTE_RANGE, 0x7FC00000);
    flown("the largest whose square is finite", kihavute_float(0x5F7FFFFF), 1, 0);
    flown("2^64", kihavute_float(0x5F800000), 1024, 1);
    flown("the largest", kihavute_float(0x7F7FFFFF), 1024, 1);
    flown("2^-75, whose square is 0, and a control on the chord", kihavute_float(0x1A000000), 1, 0);
    flown("the least", kihavute_float(1), 1, 0);
    /* a control that is a NaN: each number that leaves is the one NaN, and the ends are kept */
    for (size_t k = 0; k < 8; k++) {
        fields[2] = kihavute_float(nans[k]);
        flown("a NaN as control", 1, 1024, 1);
        leg("the first leg starts at the curve's start", 0, 0, 0, out[2], out[3]);
        leg("the last leg ends at the curve's end", 1023, out[4092], out[4093], 2, 0);
        same("a middle that is a NaN", bits(out[2]), 0x7FC00000);
        same("a middle that is a NaN", bits(out[4092]), 0x7FC00000);
        fields[0] = kihavute_float(nans[k]);
        flown("a NaN as start", 1, 1024, 1);
        same("a start that is a NaN", bits(out[0]), 0x7FC00000);
        fields[0] = 0;
    }
}

static void refusals(void) {
    build("M0 0Q1 1 2 0L9 9");
    same("a short answer", legs_into(-1, 0, 7), KIHAVUTE_SHORT_ANSWER);
    same("a short answer", answer[0], 77);
    refused("no room", 1, 0, KIHAVUTE_NO_ROOM, 2);
    refused("room for numbers and not for legs", 1, 7, KIHAVUTE_NO_ROOM, 2);
    refused("13 before 8", -1, 0, KIHAVUTE_RANGE, 0xBF800000);
    lengths[1] = -1;
    same("a short answer before 12", legs_into(-1, 0, 0), KIHAVUTE_SHORT_ANSWER);
    same("12 before 13 and 8", legs_into(-1, 0, 8), KIHAVUTE_BAD_PATH);
    same("12 carries nothing", answer[0], 77);
    untouched("12", 0);
}

/* more legs than the first pass keeps: they are put by a second one */
static void many(void) {
    build("M0 0Q1 1 2 0C3 3 4 3 9 0Q1 1 2 2");
    flown("three curves of 1,024 legs", 1e-30f, 3072, 1);
    joined("three curves that join", 0, 3072);
    flown("three curves", 0.001f, 32 + 59 + 57, 0);
}

int main(void) {
    lines();
    arcs();
    curves();
    distances();
    refusals();
    many();
    same("both libraries in one program", bits(kihavute_sqrt(4)), bits(2));
    printf("%d passed, %d failed\n", passed, failed);
    return failed != 0;
}
