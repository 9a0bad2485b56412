/* Prints the bounds of a canopy between two surveys, at a progress from 0 to 1: the smallest x and y, then the largest, in metres.
 * After tools/native-archive kihavute:
 *
 *     gcc -Iinclude examples/canopy-bounds.c target/native/libkihavute.a -o canopy-bounds && ./canopy-bounds 0.5 <examples/canopy.outlines
 */

#include "outlines.h"

int main(int count, char **words) {
    static struct outline before, after;
    static float from[MOST_NUMBERS], to[MOST_NUMBERS];
    uint64_t answer[8];
    float progress = count == 2 ? strtof(words[1], NULL) : 0.5f;

    read_two(&before, &after);
    /* the default: 128 points, or the larger outline's count if that is more */
    size_t points = larger(&before, &after), room = 2 * (points < 128 ? 128 : points);
    accepted(kihavute_morph_default(before.numbers, before.len, after.numbers, after.len, from, room, to, room, answer, 8), answer);
    accepted(kihavute_bounds(from, room, to, room, progress, answer, 8), answer);

    printf("from (%.9g, %.9g) to (%.9g, %.9g)\n", kihavute_float((uint32_t)answer[0]), kihavute_float((uint32_t)answer[1]),
           kihavute_float((uint32_t)answer[2]), kihavute_float((uint32_t)answer[3]));
    return 0;
}
