/* Prints the length and the direction of a leg, in the unit of its ends; four numbers (x and y of the start, then of the end) take
 * the place of the leg below. After tools/native-archive kihavute:
 *
 *     gcc -Iinclude examples/leg.c target/native/libkihavute.a -o leg && ./leg
 */

#include <stdio.h>
#include <stdlib.h>

#include "kihavute.h"

int main(int count, char **words) {
    /* from the landing site to the first corner of a stand, in metres */
    float leg[4] = {120.5f, 40, 480.5f, 520};
    if (count == 5) {
        for (int i = 0; i < 4; i++) leg[i] = strtof(words[i + 1], NULL);
    } else if (count != 1) {
        fprintf(stderr, "usage: leg [START-X START-Y END-X END-Y]\n");
        return 2;
    }

    uint64_t line[8];
    if (kihavute_line(leg[0], leg[1], leg[2], leg[3], 0, line, 8) != 0) {
        fprintf(stderr, "leg: its length is no finite number\n");
        return 1;
    }
    printf("leg from (%g, %g) to (%g, %g)\n", leg[0], leg[1], leg[2], leg[3]);
    printf("length %g\n", kihavute_float((uint32_t)line[5]));
    printf("direction (%g, %g)\n", kihavute_float((uint32_t)line[2]), kihavute_float((uint32_t)line[3]));
    return 0;
}
