/* The outline viewer: draws the shape between two outlines as an SVG, and the two under it. A progress from 0 to 1 may be given.
 * After tools/native-archive kihavute:
 *
 *     gcc -Iinclude examples/outline.c target/native/libkihavute.a -o outline && ./outline 0.5 <examples/canopy.outlines >canopy.svg
 */

#include "outlines.h"

/* y grows downwards in a drawing */
static void draw(const char *colour, const float *numbers, size_t len) {
    printf("<polygon fill=\"none\" stroke=\"%s\" stroke-width=\"0.1\" points=\"", colour);
    for (size_t i = 0; i < len; i += 2) printf("%s%.6g,%.6g", i == 0 ? "" : " ", numbers[i], -numbers[i + 1]);
    printf("\"/>\n");
}

int main(int count, char **words) {
    static struct outline before, after;
    static float from[MOST_NUMBERS], to[MOST_NUMBERS], shape[MOST_NUMBERS];
    uint64_t answer[8];
    float progress = count == 2 ? strtof(words[1], NULL) : 0.5f;

    read_two(&before, &after);
    /* as many points as the larger outline has, stated, so that the buffers' size is this program's own */
    size_t resolution = larger(&before, &after), room = 2 * resolution;
    accepted(kihavute_morph(before.numbers, before.len, after.numbers, after.len, resolution, from, room, to, room, answer, 8), answer);
    accepted(kihavute_evaluate(from, room, to, room, progress, shape, room, answer, 8), answer);

    printf("<svg xmlns=\"http://www.w3.org/2000/svg\" viewBox=\"-2 -20 34 22\">\n");
    draw("silver", before.numbers, before.len);
    draw("silver", after.numbers, after.len);
    draw("green", shape, room);
    printf("</svg>\n");
    return 0;
}
