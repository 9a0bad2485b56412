/* Measures the stack of each entry that reads a text, of building from a list, of a batch, of appending an arc and of the autopilot's
 * legs, and fails where one takes more than its limit. The call is made on a stack of its own, which was painted before; what it takes is counted from its
 * caller's frame down to the last byte that was written. So each count has a little of the measurement's own, the registers and
 * arguments that the caller puts below its frame: as much as is counted where an empty function stands in the entry's place. It is
 * printed, and not subtracted. What an entry reserves below its last write does not show. tests/c/run compiles and runs it; with a word
 * as its argument it prints every count. */

#define _GNU_SOURCE
#include <stdio.h>
#include <stdlib.h>
#include <string.h>
#include <ucontext.h>

#include "autopilot.h"

enum { STACK = 1 << 18, PAINT = 0xA5, LONG = 65536, PLAN = 4096, LISTING = 69632, ASKED = 64 };

static uint8_t text[LONG + 64], letters[LONG], kinds[LONG], listing[LISTING];
static uint32_t offsets[LONG], commands[LONG];
static float numbers[LONG], fields[11 * LONG], tables[33 * LONG], lengths[LONG];
static size_t size, listed, arguments; /* the bytes of the text, and the letters and numbers of the list that it is read as */
static float progresses[ASKED], raws[ASKED], flown[4 * ASKED]; /* a batch, in any order */
static uint32_t segments[ASKED], speeds[ASKED];
static float legs[4 * LONG];
static size_t counts[5]; /* of the path that the text is built as */
static uint64_t answer[8];
static uint32_t returned;

/* ---- the entries, each behind a caller that is told which function it calls */

typedef void (*function)(void);
static function called;
static const uint8_t *top;

static uint32_t nothing(void) { return 0; }

#define LENT(buffer) buffer, sizeof buffer / sizeof *buffer
#define AS(entry) (top = __builtin_frame_address(0), (__typeof__(&entry))called)

static void number(void) { returned = AS(kihavute_number)(text, size, LENT(answer)); }
static void strict(void) { returned = AS(kihavute_strict)(text, size, KIHAVUTE_SVG_1_1, LENT(answer)); }
static void reading(void) { returned = AS(kihavute_read)(text, size, LENT(letters), LENT(numbers), LENT(offsets), LENT(answer)); }
static void building(void) {
    returned = AS(kihavute_build_text)(text, size, LENT(kinds), LENT(fields), LENT(tables), LENT(lengths), LENT(commands), LENT(answer));
}
static void from_list(void) {
    returned = AS(kihavute_build)(letters, listed, numbers, arguments, LENT(kinds), LENT(fields), LENT(tables), LENT(lengths), LENT(commands),
                                  LENT(answer));
}
#define STORED kinds, counts[0], fields, counts[1], tables, counts[2], lengths, counts[3], commands, counts[4]
static void places(void) { returned = AS(kihavute_places)(STORED, LENT(progresses), LENT(segments), LENT(raws), LENT(answer)); }
static void flights(void) {
    returned = AS(kihavute_flights)(STORED, LENT(progresses), LENT(segments), LENT(raws), LENT(flown), LENT(answer));
}
static void appending(void) {
    returned = AS(kihavute_arc_to)(LENT(kinds), LENT(fields), LENT(tables), LENT(lengths), LENT(commands), 0, 0, 0, 0, 5, 3, 30, 1, 0, 4, 1,
                                   LENT(answer));
}
/* so near that every curve that is not straight is halved ten times; where there is no room for its legs, they are counted */
static void flattening(void) { returned = AS(autopilot_legs)(STORED, 1e-20f, LENT(legs), LENT(answer)); }
static void dry_run(void) { returned = AS(kihavute_dry_run)(STORED, LENT(speeds), LENT(segments), LENT(raws), LENT(answer)); }
/* the plan is given as its own listing, whose first line is wrong */
static void checking(void) { returned = AS(kihavute_check_listing)(text, size, text, size, LENT(listing), LENT(answer)); }
static void stations(void) { returned = AS(kihavute_stations)(text, size, LENT(listing), LENT(answer)); }
static void season(void) { returned = AS(kihavute_season)(text, size, LENT(listing), LENT(answer)); }

enum takes { A_NUMBER, A_PATH, A_LIST, A_STORED_PATH, A_PLAN, A_SEASON };

/* A limit by processor: L3's on x86-64 and aarch64, then those of riscv64, of 32-bit Arm and of riscv32, where clang keeps more of a call
 * in memory. They have a little room above what was measured there (docs/RUNS.md, Other processors). */
#if defined(__x86_64__) || defined(__aarch64__)
#define LIMIT(usual, riscv64, arm, riscv32) usual
#elif defined(__riscv) && __riscv_xlen == 64
#define LIMIT(usual, riscv64, arm, riscv32) riscv64
#elif defined(__arm__)
#define LIMIT(usual, riscv64, arm, riscv32) arm
#else
#define LIMIT(usual, riscv64, arm, riscv32) riscv32
#endif

static struct entry {
    const char *name;
    function entry;
    function caller;
    enum takes takes;
    size_t limit, most;
    char deepest[80];
} entries[] = {
    {"kihavute_number", (function)kihavute_number, number, A_NUMBER, LIMIT(256, 512, 512, 512), 0, ""},
    {"kihavute_strict", (function)kihavute_strict, strict, A_PATH, 512, 0, ""},
    {"kihavute_read_lean", (function)kihavute_read_lean, reading, A_PATH, LIMIT(2048, 2816, 3072, 2304), 0, ""},
    {"kihavute_build_text", (function)kihavute_build_text, building, A_PATH, LIMIT(2048, 3072, 2304, 2560), 0, ""},
    {"kihavute_build", (function)kihavute_build, from_list, A_LIST, LIMIT(2048, 3072, 2304, 2560), 0, ""},
    {"kihavute_places", (function)kihavute_places, places, A_STORED_PATH, LIMIT(2048, 2816, 1792, 2816), 0, ""},
    {"kihavute_flights", (function)kihavute_flights, flights, A_STORED_PATH, LIMIT(3584, 3328, 3072, 3072), 0, ""},
    {"kihavute_arc_to", (function)kihavute_arc_to, appending, A_STORED_PATH, LIMIT(2560, 3328, 2560, 2816), 0, ""},
    {"kihavute_read", (function)kihavute_read, reading, A_PATH, LIMIT(24 << 10, 25 << 10, 25 << 10, 24 << 10), 0, ""},
    {"autopilot_legs", (function)autopilot_legs, flattening, A_STORED_PATH, 24 << 10, 0, ""},
    {"kihavute_stations", (function)kihavute_stations, stations, A_PLAN, 64 << 10, 0, ""},
    {"kihavute_dry_run", (function)kihavute_dry_run, dry_run, A_STORED_PATH, 2048, 0, ""},
    {"kihavute_check_listing", (function)kihavute_check_listing, checking, A_PLAN, 64 << 10, 0, ""},
    {"kihavute_season", (function)kihavute_season, season, A_SEASON, 64 << 10, 0, ""},
};

/* ---- the texts: a head, a part so many times, a tail */

struct text {
    const char *what, *head, *part;
    size_t times;
    const char *tail;
    int right; /* whether it is a number or a path */
};

/* 1 + 2^-24 is halfway between two floats, 2^-150 between 0 and the least one, 2^128 - 2^103 between the largest one and infinity */
#define TIE "1.000000059604644775390625"
#define LEAST_TIE \
    "7.00649232162408535461864791644958065640130970938257885878534141944895541342930300743319094181060791015625"
#define LARGEST_TIE "340282356779733661637539395458142568448"

static const struct text single[] = {
    {"few digits", "1.5", "", 0, "", 1},
    {"19 digits", "1.234567890123456789", "", 0, "", 1},
    {"an exact tie", TIE, "", 0, "", 1},
    {"60,000 digits, just above a tie", TIE, "0", 60000, "1", 1},
    {"60,000 digits, just below a tie", "1.000000059604644775390624", "9", 60000, "", 1},
    {"60,000 zeros before the point", "", "0", 60000, "1.5", 1},
    {"60,000 zeros after the point", "1.", "0", 60000, "5", 1},
    {"60,000 zeros on either side of the tie", "", "0", 60000, TIE "0", 1},
    {"60,000 zeros after the point, and an exponent", ".", "0", 60000, "1000000059604644775390625e60001", 1},
    {"60,000 zeros before an exponent", "1000000059604644775390625", "0", 60000, "1e-60025", 1},
    {"an exponent of 20 digits", "1.5e99999999999999999999", "", 0, "", 1},
    {"an exponent of 20 digits below 0", "1.5e-99999999999999999999", "", 0, "", 1},
    {"a subnormal result", "1.1e-40", "", 0, "", 1},
    {"an exact tie of the least floats", LEAST_TIE "e-46", "", 0, "", 1},
    {"60,000 digits, just above the tie of the least floats", LEAST_TIE, "0", 60000, "1e-46", 1},
    {"an infinite result", "1e39", "", 0, "", 1},
    {"an exact tie with infinity", LARGEST_TIE, "", 0, "", 1},
    {"60,000 digits, just above the tie with infinity", LARGEST_TIE ".", "0", 60000, "1", 1},
    {"no number", "x", "", 0, "", 0},
    {"an exponent without digit", "1e", "", 0, "", 0},
};

static const struct text whole[] = {
    {"the empty text", "", "", 0, "", 1},
    {"every command", "M0 0l9 0H20v9C20 20 9 20 9 9s1 2 3 4Q5 5 0 9t1 2A5 5 0 0 1-9 9A0 1 0 0 1-9 8Z", "", 0, "", 1},
    {"curves so far away that they are measured first", "M0 0Q2e12 0 2e12 2e12C0 9e12 1 2 3 4l5 6A5 5 0 0 1 9 9", "", 0, "", 1},
    {"the reader's smaller buffers, just full", "M0 0", "l1 2 ", 255, "", 1},
    {"the reader's smaller buffers and a command", "M0 0", "l1 2 ", 256, "", 1},
    {"the reader's larger buffers, just full", "M0 0", "l1 2 ", 1023, "", 1},
    {"the reader's larger buffers and a command", "M0 0", "l1 2 ", 1024, "", 1},
    {"65,536 bytes, lines", "M0 0", "l1 2 ", 13106, "  ", 1},
    {"65,536 bytes, cubics", "M0 0", "c1 2 3 4 5 6", 5461, "", 1},
    {"65,536 bytes, arcs", "M0 0", "a9 1 30 101 1 ", 4680, "            ", 1},
    {"65,536 bytes, all letters", "M0 0", "z", 65532, "", 1},
    {"65,536 bytes, refused at the last", "M0 0", "l1 2 ", 13106, " x", 0},
    {"65,537 bytes", "M0 0", "z", 65533, "", 0},
    {"a text that is refused at its first byte", "x", "", 0, "", 0},
};

static void add(const char *part) {
    memcpy(text + size, part, strlen(part));
    size += strlen(part);
}

/* a text behind a head and before a tail of its own, its part at most so many times and bytes */
static void write_text(const char *head, const struct text *of, size_t times, size_t bytes, const char *tail) {
    size_t width = strlen(of->part), most = width > 0 ? bytes / width : 0;
    if (times > of->times) times = of->times;
    if (times > most) times = most;
    size = 0;
    add(head);
    add(of->head);
    for (size_t k = 0; k < times; k++) add(of->part);
    add(of->tail);
    add(tail);
}

/* the text as the one plan of a season */
static void after_its_count(void) {
    char line[16];
    size_t width = (size_t)snprintf(line, sizeof line, "%zu\n", size);
    memmove(text + width, text, size);
    memcpy(text, line, width);
    size += width;
}

/* ---- the measurement */

/* how many bytes of a painted stack are written to below the caller's frame */
static size_t deepest(function caller, function of) {
    static _Alignas(4096) uint8_t stack[STACK];
    ucontext_t here, there;
    called = of;
    caller(); /* what is bound at a first call is bound here */
    memset(stack, PAINT, sizeof stack);
    if (getcontext(&there)) {
        printf("no stack of its own\n");
        exit(2);
    }
    there.uc_stack.ss_sp = stack;
    there.uc_stack.ss_size = sizeof stack;
    there.uc_link = &here;
    makecontext(&there, caller, 0);
    swapcontext(&here, &there);
    const uint8_t *untouched = stack;
    while (untouched < top && *untouched == PAINT) untouched++;
    return (size_t)(top - untouched);
}

static int every, wrong;

static void measure(struct entry *entry, const char *what, int right) {
    if (entry->takes == A_LIST) {
        if (kihavute_read(text, size, LENT(letters), LENT(numbers), LENT(offsets), LENT(answer))) return; /* no list */
        listed = answer[0];
        arguments = answer[1];
    }
    if (entry->takes == A_STORED_PATH) {
        if (kihavute_build_text(text, size, LENT(kinds), LENT(fields), LENT(tables), LENT(lengths), LENT(commands), LENT(answer))) return;
        for (size_t k = 0; k < 5; k++) counts[k] = answer[k];
        for (size_t k = 0; k < ASKED; k++) progresses[k] = (float)(k * 37 % ASKED) / (ASKED - 1);
        for (size_t k = 0; k < ASKED; k++) speeds[k] = (uint32_t)(k * k * 20);
    }
    size_t needed = deepest(entry->caller, entry->entry);
    if (every) printf("  %s, %s: %u bytes, returned %u\n", entry->name, what, (unsigned)needed, (unsigned)returned);
    /* a listing and a verdict are given of every text; a path may be too long to be built */
    int due = entry->takes == A_PLAN || entry->takes == A_SEASON || (entry->caller == strict && size <= LONG) || right;
    int builds = entry->caller == building || entry->caller == from_list;
    int counts_on = entry->caller == flattening && returned == KIHAVUTE_NO_ROOM;
    if ((returned == 0) != due && !(builds && returned == KIHAVUTE_NOT_FINITE) && !counts_on) {
        printf("  %s, %s: returned %u\n", entry->name, what, (unsigned)returned);
        wrong = 1;
    }
    if (needed > entry->most) {
        entry->most = needed;
        snprintf(entry->deepest, sizeof entry->deepest, "%s", what);
    }
}

int main(int count, char **words) {
    (void)words;
    every = count > 1;
    for (struct entry *entry = entries; entry < entries + sizeof entries / sizeof *entries; entry++) {
        for (size_t k = 0; entry->takes != A_STORED_PATH && k < sizeof single / sizeof *single; k++) {
            const struct text *of = single + k;
            if (entry->takes == A_NUMBER) write_text("", of, LONG, LONG, "");
            if (entry->takes == A_PATH || entry->takes == A_LIST) write_text("M", of, LONG, LONG, " 0l1 2");
            if (entry->takes == A_PLAN) write_text("2\nM", of, LONG, PLAN - 200, " 0l1 2");
            if (entry->takes == A_SEASON) write_text("M", of, LONG, PLAN - 200, " 0l1 2"), after_its_count();
            measure(entry, of->what, of->right);
        }
        for (size_t k = 0; entry->takes != A_NUMBER && k < sizeof whole / sizeof *whole; k++) {
            const struct text *of = whole + k;
            if (entry->takes != A_PLAN && entry->takes != A_SEASON) write_text("", of, LONG, LONG, "");
            if (entry->takes == A_PLAN) write_text("1000\n", of, 255, PLAN - 20, "");
            if (entry->takes == A_SEASON) write_text("", of, 255, PLAN - 20, ""), after_its_count();
            measure(entry, of->what, of->right);
        }
        printf("%-22s %5u of at most %5u bytes of stack, %3u of them the measurement's; deepest at: %s\n", entry->name,
               (unsigned)entry->most, (unsigned)entry->limit, (unsigned)deepest(entry->caller, (function)nothing), entry->deepest);
        wrong |= entry->most > entry->limit;
    }
    return wrong;
}
