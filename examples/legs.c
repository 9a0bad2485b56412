/* Draws the legs that an autopilot flies over the path that they stand for: path data on standard input, the distance in path units as
 * the argument, an SVG picture on standard output. The path is wide and grey, each leg a thin line with a dot at its start. After
 * tools/native-archive kihavute and tools/native-archive autopilot:
 *
 *     gcc -Iinclude examples/legs.c target/native/libautopilot.a target/native/libkihavute.a -o legs
 *     ./legs 1 <examples/legs.path >legs.svg
 */

#include <stdio.h>
#include <stdlib.h>

#include "autopilot.h"

enum { BYTES = 4096, SEGMENTS = 512, LEGS = 65536 };

static uint8_t kinds[SEGMENTS];
static float fields[11 * SEGMENTS], tables[33 * SEGMENTS], lengths[SEGMENTS], out[4 * LEGS];
static uint32_t commands[SEGMENTS];
static uint64_t answer[8];

int main(int count, char **words) {
    static char text[BYTES + 1];
    float distance = count == 2 ? strtof(words[1], NULL) : 0;
    size_t size = fread(text, 1, sizeof text, stdin);
    if (count != 2 || size > BYTES) {
        fprintf(stderr, "usage: legs DISTANCE, with path data of up to %d bytes on standard input\n", BYTES);
        return 2;
    }
    while (size > 0 && text[size - 1] == '\n') size--;
    uint32_t refusal = kihavute_build_text((const uint8_t *)text, size, kinds, SEGMENTS, fields, 11 * SEGMENTS, tables, 33 * SEGMENTS,
                                           lengths, SEGMENTS, commands, SEGMENTS, answer, 8);
    if (refusal == KIHAVUTE_ACCEPTED) {
        size_t segments = answer[0], numbers = answer[1], entries = answer[2];
        refusal = autopilot_legs(kinds, segments, fields, numbers, tables, entries, lengths, segments, commands, segments, distance, out,
                                 4 * LEGS, answer, 8);
    }
    if (refusal != KIHAVUTE_ACCEPTED) {
        fprintf(stderr, "legs: refused with %u, which carries %llu\n", (unsigned)refusal, (unsigned long long)answer[0]);
        return 1;
    }
    size_t legs = answer[0];
    float low[2] = {0, 0}, high[2] = {0, 0}; /* the legs' bounds */
    for (size_t k = 0; k < 4 * legs; k++) {
        low[k % 2] = k < 2 || out[k] < low[k % 2] ? out[k] : low[k % 2];
        high[k % 2] = k < 2 || out[k] > high[k % 2] ? out[k] : high[k % 2];
    }
    float width = high[0] - low[0], height = high[1] - low[1], line = (width + height) / 400;
    printf("<svg xmlns=\"http://www.w3.org/2000/svg\" viewBox=\"%g %g %g %g\" fill=\"none\">\n", low[0] - 8 * line, low[1] - 8 * line,
           width + 16 * line, height + 16 * line);
    printf("<title>%zu legs within %g%s</title>\n", legs, distance, answer[1] ? ", a piece is still too far" : "");
    printf("<path stroke=\"#ccc\" stroke-width=\"%g\" d=\"%.*s\"/>\n", 4 * line, (int)size, text);
    printf("<g stroke=\"#036\" stroke-width=\"%g\">\n", line);
    for (size_t k = 0; k < legs; k++) {
        const float *leg = out + 4 * k;
        printf("<path d=\"M%g %gL%g %g\"/><circle cx=\"%g\" cy=\"%g\" r=\"%g\"/>\n", leg[0], leg[1], leg[2], leg[3], leg[0], leg[1], line);
    }
    puts("</g>\n</svg>");
    return 0;
}
