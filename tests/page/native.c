/* The compiled library's answers for tests/page/compare.mjs. Standard input has plans, each as its length in decimal, a LF and its bytes.
 * It prints for each plan its listing, the two strict verdicts on its path data, and if it is accepted the bits of 37 flights. */
#include <stdio.h>
#include <string.h>
#include <stdlib.h>

#include "kihavute.h"

static uint8_t plan[131072], listing[69632], kinds[256];
static float fields[2816], tables[8448], lengths[256], progresses[37], raws[37], out[148];
static uint32_t commands[256], segments[37];
static uint64_t answer[8];

static void print_verdicts(const uint8_t *data, size_t count) {
    for (uint32_t edition = 1; edition <= 2; edition++) {
        uint32_t refusal = kihavute_strict(data, count, edition, answer, 8);
        if (refusal != 0) printf("strict %u %u\n", edition, refusal);
        else printf("strict %u 0 %u\n", edition, (unsigned)answer[0]);
    }
}

static int print_flights(const uint8_t *data, size_t count) {
    if (kihavute_build_text(data, count, kinds, 256, fields, 2816, tables, 8448, lengths, 256, commands, 256, answer, 8) != 0) return 1;
    size_t n = answer[0], numbers = answer[1], entries = answer[2];
    for (int k = 0; k < 37; k++) progresses[k] = (float)k / 36;
    if (kihavute_flights(kinds, n, fields, numbers, tables, entries, lengths, n, commands, n, progresses, 37, segments, 37, raws, 37, out,
                         148, answer, 8) != 0)
        return 1;
    for (int k = 0; k < 37; k++) {
        uint32_t bits[5];
        memcpy(bits, &raws[k], 4);
        memcpy(bits + 1, &out[4 * k], 16);
        printf("%u %08X %08X %08X %08X %08X\n", segments[k], bits[0], bits[1], bits[2], bits[3], bits[4]);
    }
    return 0;
}

int main(void) {
    size_t size;
    while (scanf("%zu", &size) == 1) {
        if (getchar() != '\n' || size > sizeof plan || fread(plan, 1, size, stdin) != size) return 1;
        if (kihavute_stations(plan, size, listing, sizeof listing, answer, 8) != 0) return 1;
        fwrite(listing, 1, answer[0], stdout);
        const uint8_t *line = memchr(plan, '\n', size), *data = line ? line + 1 : plan + size;
        size_t count = (size_t)(plan + size - data);
        print_verdicts(data, count);
        if (listing[0] != 'r' && print_flights(data, count) != 0) return 1;
    }
    return 0;
}
