/* Prints the legs of a plan's path: path data on standard input, the distance in path units as the argument. tools/export compiles and
 * calls it. The first line is the count of legs and 1 where a piece is still too far, else 0; then the four numbers of each leg as the
 * eight hexadecimal digits of their f32. Status 1 with the refusal's number on standard error where the library refuses. */
#include <stdio.h>
#include <stdlib.h>
#include <string.h>

#include "autopilot.h"

enum { BYTES = 4096, SEGMENTS = 256, LEGS = 256 * 1024 };

static uint8_t kinds[SEGMENTS];
static float fields[11 * SEGMENTS], tables[33 * SEGMENTS], lengths[SEGMENTS], out[4 * LEGS];
static uint32_t commands[SEGMENTS];
static uint64_t answer[8];

int main(int count, char **words) {
    static char text[BYTES + 1];
    size_t size = fread(text, 1, sizeof text, stdin);
    if (count != 2 || size > BYTES) return 2;
    float distance = strtof(words[1], NULL);
    uint32_t refusal = kihavute_build_text((const uint8_t *)text, size, kinds, SEGMENTS, fields, 11 * SEGMENTS, tables, 33 * SEGMENTS,
                                           lengths, SEGMENTS, commands, SEGMENTS, answer, 8);
    if (refusal == KIHAVUTE_ACCEPTED) {
        uint64_t segments = answer[0], numbers = answer[1], entries = answer[2];
        refusal = autopilot_legs(kinds, segments, fields, numbers, tables, entries, lengths, segments, commands, segments, distance, out,
                                 4 * LEGS, answer, 8);
    }
    if (refusal != KIHAVUTE_ACCEPTED) {
        fprintf(stderr, "%u %llu\n", (unsigned)refusal, (unsigned long long)answer[0]);
        return 1;
    }
    printf("%llu %llu\n", (unsigned long long)answer[0], (unsigned long long)answer[1]);
    for (uint64_t k = 0; k < 4 * answer[0]; k++) {
        uint32_t bits;
        memcpy(&bits, out + k, 4);
        printf("%08X%c", (unsigned)bits, k % 4 == 3 ? '\n' : ' ');
    }
    return 0;
}
