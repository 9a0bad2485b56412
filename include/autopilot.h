/* Autopilot: a stored path of Kihavute as straight legs, proved in Rattle. This is its C interface.
 *
 * Build:  tools/native-archive autopilot makes target/native/libautopilot.a for this machine. It needs no other library, and stands
 *         beside libkihavute.a in one program, in either order: no symbol is in both.
 * Path:   the five buffers of a stored path, as the functions of kihavute.h build and check them, and the refusals' numbers, are
 *         those of kihavute.h. What its first comment says of state, memory, slices, bits and answers holds here too.
 * Stack:  at most 24 KiB, of which 16 hold the first 1,024 legs; tests/c/stack.c measures it (18,792 bytes on x86-64).
 * Time:   20 to 35 ns a leg up to 1,024 legs of a path, twice that of curves above (docs/BENCH.md).
 *
 * Example: a curve as legs that stray from it by at most 1 unit.
 *
 *     static const char plan[] = "M0 0 Q10 0 10 10";
 *     uint8_t kinds[1];
 *     float fields[11], tables[33], lengths[1], out[4 * 1024];         // 1,024 legs of one curve at most
 *     uint32_t commands[1];
 *     uint64_t answer[8];
 *     uint32_t refusal = kihavute_build_text((const uint8_t *)plan, sizeof plan - 1, kinds, 1, fields, 11, tables, 33, lengths, 1,
 *                                            commands, 1, answer, 8);
 *     if (refusal != KIHAVUTE_ACCEPTED) return (int)refusal;
 *     refusal = autopilot_legs(kinds, 1, fields, answer[1], tables, answer[2], lengths, 1, commands, 1, 1.0f, out, 4096, answer, 8);
 *     if (refusal != KIHAVUTE_ACCEPTED) return (int)refusal;           // answer has what it carries
 *     for (kihavute_count leg = 0; leg < answer[0]; leg++)
 *         printf("(%g, %g) to (%g, %g)\n", out[4 * leg], out[4 * leg + 1], out[4 * leg + 2], out[4 * leg + 3]);
 */
#ifndef AUTOPILOT_H
#define AUTOPILOT_H

#include "kihavute.h"

#ifdef __cplusplus
extern "C" {
#endif

/* Puts the legs of a path into out, four numbers each from its start: x and y where a leg starts, x and y where it ends. A NaN is
 * 0x7FC00000. Legs are in path order; within a segment each starts where the one before ends, the first at the segment's start and the
 * last at its end, bit for bit. No leg joins two segments: a moveto leaves a gap.
 *
 *   line, arc that is a line fallback   one leg, also of length 0
 *   arc                                 31 legs through its 32 samples at i/31, the first and the last sample replaced by its ends
 *   quad, cubic                         1 to 1,024 legs: the curve is halved until its controls lie within `distance`, in path
 *                                       units, of the leg between its ends (the segment, not its whole line), at most ten times
 *
 * Accepted (0): answer[0] is the count of legs, at most 67,108,864, and answer[1] is 1 where a piece of the tenth halving is still too
 * far, else 0. Nothing past the legs is written.
 *
 * Refused, in this order, and nothing is written to out:
 *   255 where answer has fewer than 8 places;
 *   12  where the path fails its check (kihavute_check);
 *   13  where the distance is a NaN, zero of either sign, below zero or infinite; answer[0] has its bits, a NaN's 0x7FC00000;
 *   8   where out_len / 4, rounded down, is below the count of legs; answer[0] has that count.
 *
 * Halves are those of de Casteljau, each middle a + (b - a) * 0.5. Whether a control is near is judged on squares, without a root, each
 * operation rounded once, in this order: limit = distance * distance; along = end - start; len2 = along . along; reach = (control -
 * start) . along; the foot is start where len2 is 0, else start where reach <= 0, else end where len2 <= reach, else start + (end -
 * start) * (reach / len2); e = (control - foot) . (control - foot). It is near where limit, len2, reach and e are finite and e <= limit.
 *
 * So a distance from 2^64 up, whose square is infinite, makes 1,024 legs of every curve, a straight one too, and sets answer[1]. At
 * most 2^-75, whose square is 0, only controls whose own square is 0 are near. Where the ends of a piece are so near each other that
 * the square underflows, the chord counts as its start. The coordinates of a stored path are not judged: a control that is a NaN makes
 * 1,024 legs and sets answer[1], no more. Rounding may leave a curve a few units in the last place of its coordinates further from its
 * legs than `distance`.
 *
 * Arcs do not look at the distance and never set answer[1]: the legs of a full turn stray from it by about 1/195 of the radius. An arc's
 * samples may miss its ends (docs/DIFFERENCES.md), and then its first or its last leg is long. */
uint32_t autopilot_legs(const uint8_t *kinds, kihavute_count kinds_len, const float *fields, kihavute_count fields_len, const float *tables,
                        kihavute_count tables_len, const float *lengths, kihavute_count lengths_len, const uint32_t *commands, kihavute_count commands_len,
                        float distance, float *out, kihavute_count out_len, uint64_t *answer, kihavute_count answer_len);

#ifdef __cplusplus
}
#endif
#endif
