/* Prints the width and the height of a canopy at each step of a season, in metres: at step k of n it has grown k/n of the way from the
 * first outline to the second. The number of steps may be given. After tools/native-archive kihavute:
 *
 *     gcc -Iinclude examples/growth-bounds.c target/native/libkihavute.a -o growth-bounds && ./growth-bounds 6 <examples/season.outlines
 */

#include "outlines.h"

int main(int count, char **words) {
    static struct outline before, after;
    static float from[MOST_NUMBERS], to[MOST_NUMBERS];
    uint64_t answer[8];
    unsigned long steps = count == 2 ? strtoul(words[1], NULL, 10) : 6;

    read_two(&before, &after);
    /* the default: 128 points, or the larger outline's count if that is more */
    size_t points = larger(&before, &after), room = 2 * (points < 128 ? 128 : points);
    accepted(kihavute_morph_default(before.numbers, before.len, after.numbers, after.len, from, room, to, room, answer, 8), answer);

    for (unsigned long k = 0; k <= steps; k++) {
        float progress = steps == 0 ? 0 : (float)k / (float)steps;
        accepted(kihavute_bounds(from, room, to, room, progress, answer, 8), answer);
        uint64_t size = kihavute_sub(kihavute_float((uint32_t)answer[2]), kihavute_float((uint32_t)answer[3]),
                                     kihavute_float((uint32_t)answer[0]), kihavute_float((uint32_t)answer[1]));
        printf("%lu %.9g %.9g\n", k, kihavute_x(size), kihavute_y(size));
    }
    return 0;
}
