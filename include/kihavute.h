/* Kihavute: the path library of a lidar flight controller, proved in Rattle. This is its C interface.
 *
 * Build:  tools/native-archive kihavute makes target/native/libkihavute.a for this machine, and with the name of a target behind
 *         it target/TARGET/libkihavute.a for x86-64-v3, aarch64, armv7, cortex-m7, cortex-m4f, riscv64, riscv32 or riscv32-soft.
 * Links:  memcpy and memset at most, which bare Arm names __aeabi_memcpy and its like (examples/cortex-m7/start.c has them), and on
 *         processors of 32 bits libgcc or the compiler's own runtime. A freestanding compiler needs <stdint.h> alone; a hosted one
 *         gets <stddef.h> and <string.h> with it.
 * Counts: a count, the number of a segment and a place in a text are kihavute_count, of 64 bits on every processor.
 * Rounds: the caller's processor rounds to nearest and keeps subnormals, as it does after its start. A program that is linked by
 *         gcc with -ffast-math or -Ofast, or sets FZ in FPSCR (FPCR; FTZ and DAZ in MXCSR), gets other answers, on x86-64 too:
 *         falling subnormal lengths are then accepted. kihavute_floats_right, at the end, asks the library itself.
 * Align:  a pointer is aligned as its type is, an answer to 8 bytes; a Cortex-M faults on another.
 * State:  none. No function allocates, blocks or reads anything but its arguments, and each is defined for every bit pattern
 *         of them. Any thread may call any function, and several at the same time.
 * Memory: every buffer is the caller's, before, during and after a call. A call reads what is lent as const, writes to what is
 *         not, and keeps no pointer. Calls at the same time may share what they read, and no output and no answer.
 * Limits: 65,536 bytes of text, 65,536 commands, 65,536 segments of a path, 4,096 points of a list; 4,096 bytes, 256 commands
 *         and 2 to 1,000 stations of a plan, whose listing has at most 69,632 bytes; 36,000 seconds and 100,000 millimetres per
 *         second of a dry run; angles of 64 radians for sine and cosine.
 *         What lies beyond is refused, or a NaN where that is said. The rotation of an arc is any finite number of degrees.
 * Stack:  at most so many bytes, whatever is lent; tests/c/stack.c holds the limits, docs/RUNS.md has what was measured. The other
 *         calls take at most 2 KiB on x86-64 and aarch64, and were measured on no other processor.
 *                                           x86-64, aarch64   riscv64   armv7, Cortex-M   riscv32
 *           kihavute_number                             256       512               512       512
 *           kihavute_strict                             512       512               512       512
 *           kihavute_read_lean                        2,048     2,816             3,072     2,304
 *           kihavute_build_text, kihavute_build       2,048     3,072             2,304     2,560
 *           kihavute_places                           2,048     2,816             1,792     2,816
 *           kihavute_flights                          3,584     3,328             3,072     3,072
 *           kihavute_arc_to                           2,560     3,328             2,560     2,816
 *           kihavute_read                            24,576    25,600            25,600    24,576
 *           kihavute_stations, kihavute_season,
 *           kihavute_check_listing                   65,536    65,536            65,536    65,536
 * Units:  coordinates and lengths are in the unit of the path, times t are pure numbers, angles say theirs.
 * Sizes:  a coordinate is a float of 24 bits, so the larger it is, the further apart its neighbours are: 2^-10 (0.00098) from
 *         8,192 to 16,384, 2^-9 from there, 1/32 from 262,144, 1/2 from 4,194,304, and twice as much at each doubling. A northing
 *         of 6672100.75 is held as 6672101. Shift the origin: subtract a whole number from every x and another from every y, in
 *         double, before the text or the list is made, and add them again, in double, to the points that come out.
 * Floats: a progress, how far along by length, and a raw parameter, a curve's own number, are both float here, and C's compiler takes
 *         the one for the other; in Rust and in the proved code each is a type of its own. Every `progress` of a call, and every
 *         place of `progresses`, is a progress. Raw parameters only come out: of kihavute_raw_parameter, the lone segments, the
 *         flights, and into `raws` of the batches. kihavute_spot gives a progress, the one along the segment. No call takes a raw
 *         parameter, so never hand one back.
 * Bits:   a function that returns uint32_t gives the bits of a float, as IEEE 754 binary32 lays them out. A NaN is
 *         always 0x7FC00000 there, whatever NaN went in. A function that returns uint64_t gives two such
 *         patterns: x in the low half, y in the high half.
 * Answer: a function that ends in `answer, answer_len` returns 0 where it accepts, else the number of a refusal in the
 *         table below. What it gives, or what the refusal carries, is written to the first places of answer, and to
 *         no other place: lend it 8 places. Into fewer nothing is written, and 255 is returned.
 * Slices: a pointer and the count of elements behind it. Nothing is read or written past the count, so with a count of 0 the
 *         pointer may be null, as that of C++'s empty vector is. An answer or an output overlaps nothing else that the call is
 *         lent.
 * Order:  each operation rounds once, to nearest with ties to even, in the order written beside each name. No
 *         multiplication is fused with an addition.
 *
 * Example: a plan is built into the caller's buffers, and asked where it is at half of its length, and where it heads.
 *
 *     static const char plan[] = "M0 0 H30 V40";
 *     uint8_t kinds[8];
 *     float fields[88], tables[264], lengths[8];                       // room for 8 segments of any kind
 *     uint32_t commands[8];
 *     uint64_t answer[8];
 *     uint32_t refusal = kihavute_build_text((const uint8_t *)plan, sizeof plan - 1, kinds, 8, fields, 88, tables, 264,
 *                                            lengths, 8, commands, 8, answer, 8);
 *     if (refusal != KIHAVUTE_ACCEPTED) return (int)refusal;           // answer has what it carries
 *     kihavute_count segments = answer[0], numbers = answer[1], entries = answer[2];
 *     refusal = kihavute_flight(kinds, segments, fields, numbers, tables, entries, lengths, segments, commands, segments, 0.5f,
 *                               answer, 8);
 *     if (refusal != KIHAVUTE_ACCEPTED) return (int)refusal;
 *     float flight[4];                                                 // x, y, and the direction's x, y
 *     for (int i = 0; i < 4; i++) flight[i] = kihavute_float((uint32_t)answer[i]);
 *     printf("(%g, %g) to (%g, %g)\n", flight[0], flight[1], flight[2], flight[3]); // prints (30, 5) to (0, 1)
 */
#ifndef KIHAVUTE_H
#define KIHAVUTE_H

#include <stdint.h>
#if __STDC_HOSTED__
#include <stddef.h>
#include <string.h>
#endif

#ifdef __cplusplus
extern "C" {
#endif

/* How many elements a pointer leads to, a segment's number, a place: 64 bits, where size_t has 32 too. */
typedef uint64_t kihavute_count;

/* ---- Refusals ---- */

/* Offsets count bytes of the text, commands and segments count from 0; beside each number: what it carries. */
enum kihavute_refusal {
    KIHAVUTE_ACCEPTED = 0,
    KIHAVUTE_TOO_LONG = 1,            /* the text's length */
    KIHAVUTE_UNEXPECTED_END = 2,      /* offset, the text's length */
    KIHAVUTE_EXPECTED_NUMBER = 3,     /* offset */
    KIHAVUTE_INVALID_NUMBER = 4,      /* offset of the e of an exponent without digit; there is no other cause */
    KIHAVUTE_EXPECTED_FLAG = 5,       /* offset */
    KIHAVUTE_UNSUPPORTED_COMMAND = 6, /* letter, offset */
    KIHAVUTE_MISSING_MOVE_TO = 7,     /* offset */
    KIHAVUTE_NO_ROOM = 8,             /* the count needed of each output, in the call's order */
    KIHAVUTE_BAD_LIST = 9,            /* the first bad command, or half the count of numbers rounded down */
    KIHAVUTE_ROTATION_RANGE = 10,     /* segment */
    KIHAVUTE_NOT_FINITE = 11,         /* the first such segment, point or entry */
    KIHAVUTE_BAD_PATH = 12,           /* nothing */
    KIHAVUTE_RANGE = 13,              /* the number out of range */
    KIHAVUTE_SHORT_ANSWER = 255       /* nothing */
};

/* Where a segment's number is due and a path has no segment: 2^32 - 1, which is no segment's number. */
#define KIHAVUTE_NO_SEGMENT 4294967295

/* ---- Roots ---- */

/* The float nearest to the exact square root of x, ties to even. -0, +0 and infinity give themselves. NaN and
 * every x below zero give the NaN 0x7FC00000. */
float kihavute_sqrt(float x);

/* ---- Sine, cosine, atan2: the library's own, equal on every machine ---- */

/* Sine and cosine of an angle in radians, at most 64 in size; else, and for a NaN, the NaN 0x7FC00000. Each lies
 * within 2^-22 of the exact value of the angle less whole turns, a turn taken as 0x6487ED5110B4611 / 2^56. The sine of
 * an angle below 2^-12 in size is the angle. */
float kihavute_sin(float angle);
float kihavute_cos(float angle);

/* Both in one call: the cosine in the low half, the sine in the high half, as the point of the unit circle. */
uint64_t kihavute_sin_cos(float angle);

/* The angle of (x, y) in radians, from -PI to PI with the float 0x40490FDB for PI, and with the sign of y. For y zero
 * it is zero with x above 0 and PI in size with x below; both zero give +0. A coordinate that is not finite gives the
 * NaN 0x7FC00000. */
float kihavute_atan2(float y, float x);

/* ---- Single numbers ---- */

/* x itself, and for any NaN the one NaN 0x7FC00000: what every float passes through before it is stored. */
float kihavute_tidy(float x);

/* The smaller and the larger of a and b. A NaN loses against a number; zeros of either sign are equal, and of
 * two equals the first is kept. */
uint32_t kihavute_min(float a, float b);
uint32_t kihavute_max(float a, float b);

/* low where x is below low, else high where x is above high, else x. A NaN x stays NaN. The bounds are the
 * caller's: where low is above high, an x below low gives low and an x from low on gives high. A NaN bound
 * bounds nothing. */
uint32_t kihavute_clamp(float x, float low, float high);

/* x held to 0 and 1. A NaN is 0, and -0 stays -0. */
uint32_t kihavute_clamp01(float x);

/* a + (b - a) * t. t is not clamped. */
uint32_t kihavute_lerp(float a, float b, float t);

/* deg * PI / 180 and rad * 180 / PI, with the float 0x40490FDB for PI. */
uint32_t kihavute_deg_to_rad(float deg);
uint32_t kihavute_rad_to_deg(float rad);

/* ---- Points ---- */

/* (ax + bx, ay + by) and (ax - bx, ay - by). */
uint64_t kihavute_add(float ax, float ay, float bx, float by);
uint64_t kihavute_sub(float ax, float ay, float bx, float by);

/* (x * factor, y * factor). */
uint64_t kihavute_scale(float x, float y, float factor);

/* ax * bx + ay * by. */
uint32_t kihavute_dot(float ax, float ay, float bx, float by);

/* The root of x * x + y * y, worked out in double and then rounded to float: squares, sum and root lose nothing to float's range,
 * so that only a length above the largest float is infinite, and 2e19 and 1e-30 have their lengths. */
uint32_t kihavute_length(float x, float y);

/* The length of (bx - ax, by - ay), a difference of floats: infinite where that is. */
uint32_t kihavute_distance(float ax, float ay, float bx, float by);

/* (x / length, y / length), and (0, 0) where the length is at most 2^-23. */
uint64_t kihavute_normalize(float x, float y);

/* Each coordinate's lerp from a to b. */
uint64_t kihavute_lerp_point(float ax, float ay, float bx, float by, float t);

/* The heading of a tangent in degrees, counted from the x axis towards the y axis, from -180 to 180: the angle of
 * (x, y), times 180 / PI. (0, 0) gives 0. */
uint32_t kihavute_rotation_deg(float x, float y);

/* The angle from u to v in radians, from -PI to PI, below 0 where ux * vy - uy * vx is: the angle of (c, s), where c is
 * the product of u and v over the product of their lengths (at least 2^-23), held to -1 and 1, and s the root of 1 - c * c. */
uint32_t kihavute_angle_between(float ux, float uy, float vx, float vy);

/* ---- Lookup: a progress is how far along by length, from 0 to 1; a NaN counts as 0, the rest is clamped ---- */

/* The raw parameter of a curve at this progress: answer[0] gets its bits. The table has the curve's running lengths
 * at the parameters 0, 1/n, .. 1, for n + 1 entries (32 for a quad, a cubic or an arc), and their total. Refused with
 * 12 where the entries do not start at 0, fall, are not finite, are none or more than 65,521, or where the total is not
 * the last of them. A total of at most 2^-23 gives the clamped progress. */
uint32_t kihavute_raw_parameter(const float *entries, kihavute_count entries_len, float total, float progress,
                                uint64_t *answer, kihavute_count answer_len);

/* The segment of a path at this progress, counted from 0, and how far along it: answer[0] gets the segment, answer[1]
 * the bits of the progress on it. lengths has the path's running length at the end of each segment. Refused with 12
 * where one is below 0, below the one before it, or not finite, or where there are more than 65,536. A path without
 * segments (lengths_len is 0) has no segment to give: 0 is returned and answer stays as it was. A total of at most 2^-23
 * gives the last segment at 1. */
uint32_t kihavute_spot(const float *lengths, kihavute_count lengths_len, float progress,
                       uint64_t *answer, kihavute_count answer_len);

/* ---- Lone segments ----
 * A call makes the segment of the numbers that it is given and asks it once, at a progress along it: answer[0] and [1] get the
 * bits of x and y of the position, [2] and [3] those of the tangent, [4] those of the raw parameter at which both were taken,
 * [5] those of the length. The tangent has the length 1, or is (0, 0) where nothing tells; kihavute_rotation_deg gives its
 * heading in degrees.
 *
 *     uint64_t answer[8];
 *     if (kihavute_quad(0, 0, 1, 0, 2, 0, 0.5f, answer, 8) == 0)
 *         printf("%g %g\n", kihavute_float((uint32_t)answer[0]), kihavute_float((uint32_t)answer[1])); // 1 0
 *
 * Refused with 11, and answer[0] is 0, where the length is infinite or a NaN. */

/* ---- Quads and cubics ----
 * From (sx, sy) to (ex, ey), with the control (cx, cy) of a quad or the controls (ax, ay) and (bx, by) of a cubic. The length
 * is the sum of the distances of 32 samples, at the parameters 0, 1/31, .. 1. */

/* What the curve answers. Where its derivative tells nothing, the tangent is the direction to the place a thousandth further;
 * (0, 0) where that tells nothing either. */
uint32_t kihavute_quad(float sx, float sy, float cx, float cy, float ex, float ey, float progress,
                       uint64_t *answer, kihavute_count answer_len);
uint32_t kihavute_cubic(float sx, float sy, float ax, float ay, float bx, float by, float ex, float ey, float progress,
                        uint64_t *answer, kihavute_count answer_len);

/* The table: out gets 33 numbers, the running lengths at the 32 samples and then their total, which is the last of them.
 * Nothing is written to answer. Refused with 8, and answer[0] is 33, where out has fewer places; a refusal writes nothing
 * to out. */
uint32_t kihavute_quad_table(float sx, float sy, float cx, float cy, float ex, float ey, float *out, kihavute_count out_len,
                             uint64_t *answer, kihavute_count answer_len);
uint32_t kihavute_cubic_table(float sx, float sy, float ax, float ay, float bx, float by, float ex, float ey,
                              float *out, kihavute_count out_len, uint64_t *answer, kihavute_count answer_len);

/* ---- Lines ---- */

/* What the line from (sx, sy) to (ex, ey) answers: s + (e - s)*t in each coordinate, where t, the raw parameter, is the progress
 * clamped to 0 and 1. Its tangent is the same everywhere, (0, 0) where the ends are within 2^-23. */
uint32_t kihavute_line(float sx, float sy, float ex, float ey, float progress, uint64_t *answer, kihavute_count answer_len);

/* ---- Elliptical arcs ----
 * From (sx, sy) to (ex, ey) as a path's text gives it: the radii rx and ry, whose signs do not count, the rotation of the
 * ellipse in degrees, and two flags, of which 0 is no and any other number yes. Where the ends are within 2^-23, or a radius is
 * that small, the arc falls back to the line. A rotation beyond 360 in size turns the ellipse by what is left of full turns,
 * exactly: 765 as 45 does, -765 as -45. Refused with 10, and answer[0] is 0, where the arc does not fall back and the rotation
 * is infinite or a NaN; then with 11, and answer[0] is 0, where its length is. An arc may miss its ends: docs/DIFFERENCES.md
 * has by how much. */

/* What the arc answers; a fallback answers what its line does. */
uint32_t kihavute_arc(float sx, float sy, float rx, float ry, float rotation, uint32_t large, uint32_t sweep, float ex, float ey,
                      float progress, uint64_t *answer, kihavute_count answer_len);

/* The arc's numbers: out gets 11, the start, the end and the centre, the radii as they were fitted, the rotation in
 * degrees, the angle at which the arc starts and the one by which it turns, in radians. A line fallback has its ends and
 * its rotation, and zeros. answer[0] is 1 for a fallback, else 0. Refused with 8, and answer[0] is 11, where out has
 * fewer places. */
uint32_t kihavute_arc_shape(float sx, float sy, float rx, float ry, float rotation, uint32_t large, uint32_t sweep, float ex,
                            float ey, float *out, kihavute_count out_len, uint64_t *answer, kihavute_count answer_len);

/* The table: out gets 33 numbers as for a quad and answer[0] is 0, or answer[0] is 1 and out gets nothing where the arc
 * fell back to a line, which has no table. Refused with 8, and answer[0] is 33, where out has fewer places. */
uint32_t kihavute_arc_table(float sx, float sy, float rx, float ry, float rotation, uint32_t large, uint32_t sweep, float ex,
                            float ey, float *out, kihavute_count out_len, uint64_t *answer, kihavute_count answer_len);

/* ---- Splines ----
 * A Catmull-Rom spline through points: numbers of them two by two, x before y, at most 4,096 points. Its table has the
 * running lengths of samples, 16 for each span and one more, a single 0 below two points; the last one is the spline's
 * length. Make the table once, keep it beside the points, and ask both. */

/* Stores the table from its start: answer[0] gets the count of entries. Refused, with nothing stored: 9 where the count
 * of numbers is odd (half of it, rounded down), 13 above 4,096 points (their number), 11 where an entry is infinite or a
 * NaN (the first such entry), 8 where the table is too short (the count needed), in this order. */
uint32_t kihavute_spline_table(const float *points, kihavute_count points_len, float *table, kihavute_count table_len,
                               uint64_t *answer, kihavute_count answer_len);

/* A query is refused with 12 where the points are an odd list or more than 4,096, or where the table has another count
 * of entries, does not start at 0, falls or is not finite. Every entry is judged at each call.
 * What is flown at this progress, six values: answer[0] and [1] get the bits of the place's x and y, [2] and [3] those of the
 * direction, which has the length 1, [4] the segment and [5] the bits of the raw parameter at which both were taken. Without
 * points the place is (0, 0); the direction is (0, 0) below two points, and where the two samples a thousandth to each side
 * tell nothing. A spline is one segment, 0; below two points the raw parameter is the progress, clamped. As progress rises
 * the raw parameter never falls, from +0 at 0 to 1 at 1 (proved: docs/ORDER.md). */
uint32_t kihavute_spline_flight(const float *points, kihavute_count points_len, const float *table, kihavute_count table_len,
                                float progress, uint64_t *answer, kihavute_count answer_len);

/* The heading at this progress, in degrees from the x axis towards the y axis: answer[0] gets its bits. */
uint32_t kihavute_spline_rotation_deg(const float *points, kihavute_count points_len, const float *table, kihavute_count table_len,
                                      float progress, uint64_t *answer, kihavute_count answer_len);

/* The length: answer[0] gets its bits. */
uint32_t kihavute_spline_length(const float *points, kihavute_count points_len, const float *table, kihavute_count table_len,
                                uint64_t *answer, kihavute_count answer_len);

/* ---- Shapes ----
 * A list of points has two numbers for each, x before y, in path units, and at most 4,096 points. Refused with 9 where the
 * count of numbers is odd (answer[0]: half of it, rounded down), with 13 above 4,096 points (their count), with 11 where the
 * length up to a point is infinite or a NaN (the first such point), with 8 where an output is too short (the numbers needed
 * of each output). With two shapes each step judges the first, then the second. A refusal writes to no output; an accepted
 * call writes the counted numbers from each output's start and no others. An answer shorter than 8 places is judged first. */

/* count points (13 above 4,096), evenly spaced along the line through the given ones; the first and the last are copies.
 * answer[0] gets how many numbers were written: 2 * count, or 0 without points. One point, a count of 1 or a line of a
 * length of at most 2^-23 gives copies of the first point.
 *
 *     float line[6] = {0, 0, 2, 0, 2, 2}, out[10];
 *     uint64_t answer[8];
 *     if (kihavute_resample(line, 6, 5, out, 10, answer, 8) == 0)
 *         ... out has the points (0, 0) (1, 0) (2, 0) (2, 1) (2, 2)
 */
uint32_t kihavute_resample(const float *points, kihavute_count points_len, kihavute_count count, float *out, kihavute_count out_len,
                           uint64_t *answer, kihavute_count answer_len);

/* The two shapes of a morph: each resampled to resolution points, at least 2. answer[0] and answer[1] get how many numbers
 * were written to each output: 0 for a shape without points. */
uint32_t kihavute_morph(const float *from, kihavute_count from_len, const float *to, kihavute_count to_len,
                        kihavute_count resolution, float *out_from, kihavute_count out_from_len,
                        float *out_to, kihavute_count out_to_len, uint64_t *answer, kihavute_count answer_len);

/* The same where no resolution is stated: 128 points, or as many as the larger shape has if that is more. Each output of a
 * shape that has points takes 2 * 128 numbers, or 2 * that count. */
uint32_t kihavute_morph_default(const float *from, kihavute_count from_len, const float *to, kihavute_count to_len,
                                float *out_from, kihavute_count out_from_len, float *out_to, kihavute_count out_to_len,
                                uint64_t *answer, kihavute_count answer_len);

/* The shape between two shapes: a + (b - a) * t of each coordinate, for the points that both have. t is held to 0 and 1,
 * and a NaN stays. answer[0] gets how many numbers were written. */
uint32_t kihavute_evaluate(const float *from, kihavute_count from_len, const float *to, kihavute_count to_len, float t,
                           float *out, kihavute_count out_len, uint64_t *answer, kihavute_count answer_len);

/* The bounds of that shape: answer[0] to answer[3] get the bits of the smallest x and y and of the largest x and y. A NaN
 * loses against a number, and of equal zeros the first is kept. Where one shape has no points: four zeros. They are the bounds
 * of the points given, and those of a resampled outline can lie within the outline's own, since evenly spaced points need not
 * hit its corners: halfway, the corners of examples/canopy.outlines reach (24.75, 17.25), the default's 128 points
 * (24.66, 17.22), and four points (21.27, 17.16). */
uint32_t kihavute_bounds(const float *from, kihavute_count from_len, const float *to, kihavute_count to_len, float t,
                         uint64_t *answer, kihavute_count answer_len);

/* ---- Texts ----
 * A text is a pointer to its bytes and their count. It may hold any bytes and needs no end mark. A function that can refuse
 * returns the refusal's number, 0 where it accepts, and writes what goes with that to the start of answer, an array of at least 8
 * places. Into a shorter one it writes nothing and returns 255. */

/* The decimal number that a text starts with: an optional sign, digits, an optional point and digits, at least one digit
 * in all, an optional exponent, the longest text. answer[0] gets the bits of the float nearest to its exact value, ties to
 * even, for any count of digits; answer[1] how many bytes it takes. Refused with 1 above 65,536 bytes (the count), with
 * 3 at 0 where no number starts, with 4 at the e of an exponent without digit, and for no other reason: every text that
 * the scan passes has a value. It costs at most 256 bytes of stack, whatever the text, and 512 off x86-64 and aarch64. */
uint32_t kihavute_number(const uint8_t *text, kihavute_count text_len, uint64_t *answer, kihavute_count answer_len);

/* The editions of the path grammar: SVG 1.1 Second Edition, 8.3.9, and SVG 2, Candidate Recommendation of 4 October 2018, 9.3.9. */
enum kihavute_edition {
    KIHAVUTE_SVG_1_1 = 1,
    KIHAVUTE_SVG_2 = 2
};

/* Whether the text matches the path grammar of an edition: answer[0] is 1 for a yes and 0 for a no. No sign stands before an
 * arc's radius in either; kihavute_read takes one, and building takes a radius by its size. SVG 2 is read to the letter: most
 * drawings in use are a NO under it, since it writes no white space between commands ("M5 5 L6 6" is a no, "M5 5L 6 6" a yes),
 * none at the end, and before the first moveto only where that is the whole path; a number has no exponent and no point without a
 * digit behind it, a rotation has no sign; a form feed is white space there, and not in 1.1. Every text with a yes, under either,
 * is read by kihavute_read (8 for want of room aside). Refused with 13: another edition; answer[0] is its number. Then with 1:
 * above 65,536 bytes; answer[0] is the count. The time is linear. */
uint32_t kihavute_strict(const uint8_t *text, kihavute_count text_len, uint32_t edition,
                         uint64_t *answer, kihavute_count answer_len);

/* Reads path data into a command list. A command is a letter (M, L, Q, C, A or Z) in letters and 2, 2, 4, 6, 7 or 0
 * numbers in numbers, in the unit of the path, a rotation in degrees, a flag +0 or 1: M and L have their end, Q a control
 * and its end, C two controls and its end, A two radii, the rotation, the flags large and sweep and its end. Coordinates
 * are absolute, H and V become L, S and T become C and Q: their first control is the last one mirrored, p + (p - c) by
 * coordinate, past C or S for S and past Q or T for T, and else the current point. A NaN that comes of adding is 0x7FC00000.
 * Separators are comma, space, tab, LF, FF and CR. For each letter an offset is stored: where in the text, in bytes from 0, the
 * letter stands that made the command; a group that repeats it and the pairs after an M carry the same, a Z its own. answer[0] gets
 * how many letters are stored, answer[1] how many numbers, answer[2] how many offsets, as many as letters; all stand from their
 * buffer's start, and what stands past them is left as it was.
 *
 * Refused with 1 above 65,536 bytes, else with the first of 2 to 7 in the text (4 is an exponent without digit, at its e,
 * and nothing else), else with 8 where a buffer is too short:
 * answer[0] is the count of letters needed, answer[1] that of numbers, answer[2] that of offsets. A call that does not return 0
 * leaves all buffers as they were, so that a call with buffers of length 0 asks for the sizes.
 *
 * It costs some 24 KB of stack, whatever the text, since most texts are passed once, by way of buffers of its own. For a
 * task with less stack there is the next one; docs/BENCH.md has the times of both. */
uint32_t kihavute_read(const uint8_t *text, kihavute_count text_len, uint8_t *letters, kihavute_count letters_len,
                       float *numbers, kihavute_count numbers_len, uint32_t *offsets, kihavute_count offsets_len,
                       uint64_t *answer, kihavute_count answer_len);

/* The same in every place and number: of two calls that are lent the same, one of each, answers and buffers are equal. It costs at
 * most 2,048 bytes of stack (the table at the top has other processors), and twice the time: it has no buffers of its own and passes
 * each text twice, to count and then to store. */
uint32_t kihavute_read_lean(const uint8_t *text, kihavute_count text_len, uint8_t *letters, kihavute_count letters_len,
                            float *numbers, kihavute_count numbers_len, uint32_t *offsets, kihavute_count offsets_len,
                            uint64_t *answer, kihavute_count answer_len);

/* Whether letters and numbers are a command list as kihavute_read stores it: accepted, with nothing written, where each
 * letter is known and has its numbers, each flag is +0 or 1 by its bits, and no number is left over. Refused with 13 above
 * 65,536 letters (the count), else with 9 at the first command that is malformed, or at the number of commands where
 * numbers are left over. Coordinates may be any floats. */
uint32_t kihavute_check_commands(const uint8_t *letters, kihavute_count letters_len,
                                 const float *numbers, kihavute_count numbers_len, uint64_t *answer, kihavute_count answer_len);

/* ---- Stored paths ----
 * A path is stored in five arrays, segment after segment in drawing order; docs/STORED.md has the layout place by place.
 *   kinds    a byte for each segment: 0 line, 1 quad, 2 cubic, 3 arc, 4 arc that fell back to a line
 *   fields   its numbers, 4, 6, 8, 11 or 11: start x y, end x y of a line; start, control, end of a quad; start, two
 *            controls, end of a cubic; start, end, centre, radii, rotation in degrees, start angle and angle swept in
 *            radians of an arc and of a fallback
 *   tables   for each quad, cubic and arc of kind 3, 33 numbers: 32 running lengths from 0 on, then their total
 *   lengths  the running length up to the end of each segment
 *   commands the number of the command that made each segment: its place, from 0, in the list that was built or, for a text,
 *            in the list that kihavute_read stores. A command that draws nothing is counted too: the segments of
 *            M0 0L3 4M1 1L2 2 have 1 and 3. With the offsets that kihavute_read stores it leads to the letter in the text
 * Points and lengths are in path units. */

/* Whether five arrays hold a stored path: at most 65,536 segments of known kinds with exactly their numbers and tables; running
 * lengths and tables that are finite, not below 0 and never fall; each table starts at 0 and its total is its last entry; one
 * command number for each segment, none below the one before it, equal ones and any size allowed. answer[0] gets the count of
 * segments. Refused with 12, which carries nothing. Coordinates are not judged. */
uint32_t kihavute_check(const uint8_t *kinds, kihavute_count kinds_len, const float *fields, kihavute_count fields_len,
                        const float *tables, kihavute_count tables_len, const float *lengths, kihavute_count lengths_len,
                        const uint32_t *commands, kihavute_count commands_len, uint64_t *answer, kihavute_count answer_len);

/* ---- Building ---- */

/* Builds the path of a command list: letters (M L Q C A Z) and their 2, 2, 4, 6, 7 or 0 numbers. answer[0] to answer[4] get how
 * many places of kinds, fields, tables, lengths and commands are written from their starts; the others stay. Refused, with
 * nothing written, in this order: 13 above 65,536 commands (their count); 9 at the first bad command; 10 at a segment that is
 * an arc whose rotation is infinite or a NaN and 11 at one where the running length becomes so, segment by segment; 8 with the
 * five counts needed. An arc's rotation is stored as it is given, full turns too. */
uint32_t kihavute_build(const uint8_t *letters, kihavute_count letters_len, const float *numbers, kihavute_count numbers_len,
                        uint8_t *kinds, kihavute_count kinds_len, float *fields, kihavute_count fields_len,
                        float *tables, kihavute_count tables_len, float *lengths, kihavute_count lengths_len,
                        uint32_t *commands, kihavute_count commands_len, uint64_t *answer, kihavute_count answer_len);

/* The same for a text of path data, with no command list between. Refused with 1 above 65,536 bytes (the count), with 2 to 7
 * where it does not read to its end (4 is an exponent without digit, at its e, and nothing else), then as above with 10, 11 and
 * 8. A segment's number is the place of its command in the list that kihavute_read gives. */
uint32_t kihavute_build_text(const uint8_t *text, kihavute_count text_len, uint8_t *kinds, kihavute_count kinds_len,
                             float *fields, kihavute_count fields_len, float *tables, kihavute_count tables_len,
                             float *lengths, kihavute_count lengths_len, uint32_t *commands, kihavute_count commands_len,
                             uint64_t *answer, kihavute_count answer_len);

/* ---- Segments, one by one ----
 * Appending: count segments are the path, at the start of five buffers with room after them; docs/STORED.md has the layout. One
 * segment is stored after them, its table made from its numbers, and the running length added to. answer[0] to answer[4] get
 * how many places of kinds, fields, tables, lengths and commands are in use then. command is the number that the segment gets.
 * Refused, with nothing written, in this order: 12 where the first count segments are no stored path, or command is below the
 * number of the last of them, 13 with count 65,536 (65,537, the segments that there would be), 10 with count for an arc whose
 * rotation is infinite or a NaN, 11 with count where the running length becomes so, 8 with the five counts needed. Start from
 * count 0; each call checks the whole path that is there, so that a path of n segments costs n checks: for a whole plan take
 * kihavute_build. The start is given each time: it need not be where the path ended. */

/* Appends the line from (sx, sy) to (ex, ey). */
uint32_t kihavute_line_to(uint8_t *kinds, kihavute_count kinds_len, float *fields, kihavute_count fields_len,
                          float *tables, kihavute_count tables_len, float *lengths, kihavute_count lengths_len,
                          uint32_t *commands, kihavute_count commands_len, kihavute_count count, uint32_t command, float sx,
                          float sy, float ex, float ey, uint64_t *answer, kihavute_count answer_len);

/* Appends the quad from (sx, sy) to (ex, ey) with the control (cx, cy). */
uint32_t kihavute_quad_to(uint8_t *kinds, kihavute_count kinds_len, float *fields, kihavute_count fields_len,
                          float *tables, kihavute_count tables_len, float *lengths, kihavute_count lengths_len,
                          uint32_t *commands, kihavute_count commands_len, kihavute_count count, uint32_t command, float sx,
                          float sy, float cx, float cy, float ex, float ey, uint64_t *answer, kihavute_count answer_len);

/* Appends the cubic from (sx, sy) to (ex, ey) with the controls (ax, ay) and (bx, by). */
uint32_t kihavute_cubic_to(uint8_t *kinds, kihavute_count kinds_len, float *fields, kihavute_count fields_len,
                           float *tables, kihavute_count tables_len, float *lengths, kihavute_count lengths_len,
                           uint32_t *commands, kihavute_count commands_len, kihavute_count count, uint32_t command, float sx,
                           float sy, float ax, float ay, float bx, float by, float ex, float ey,
                           uint64_t *answer, kihavute_count answer_len);

/* Appends the arc from (sx, sy) to (ex, ey): two radii, the rotation in degrees, and two flags, of which 0 is no and any other
 * number yes. Where the ends are within 2^-23, or a radius is that small, it is the line fallback, kind 4. */
uint32_t kihavute_arc_to(uint8_t *kinds, kihavute_count kinds_len, float *fields, kihavute_count fields_len,
                         float *tables, kihavute_count tables_len, float *lengths, kihavute_count lengths_len,
                         uint32_t *commands, kihavute_count commands_len, kihavute_count count, uint32_t command, float sx,
                         float sy, float rx, float ry, float rotation, uint32_t large, uint32_t sweep, float ex, float ey,
                         uint64_t *answer, kihavute_count answer_len);

/* Appends the segment of a kind and of its 4, 6, 8, 11 or 11 numbers, as both are stored. Refused with 12 also where the kind is
 * above 4 or has another count of numbers. The numbers of an arc are taken as they are. */
uint32_t kihavute_push_segment(uint8_t *kinds, kihavute_count kinds_len, float *fields, kihavute_count fields_len,
                               float *tables, kihavute_count tables_len, float *lengths, kihavute_count lengths_len,
                               uint32_t *commands, kihavute_count commands_len, kihavute_count count, uint32_t command,
                               uint8_t kind, const float *numbers, kihavute_count numbers_len,
                               uint64_t *answer, kihavute_count answer_len);

/* How many segments a stored path has: answer[0]. Refused with 12, as each of the calls below, where the five are none. */
uint32_t kihavute_len(const uint8_t *kinds, kihavute_count kinds_len, const float *fields, kihavute_count fields_len,
                      const float *tables, kihavute_count tables_len, const float *lengths, kihavute_count lengths_len,
                      const uint32_t *commands, kihavute_count commands_len, uint64_t *answer, kihavute_count answer_len);

/* Whether it has none: answer[0] is 1 for a yes and 0 for a no. */
uint32_t kihavute_is_empty(const uint8_t *kinds, kihavute_count kinds_len, const float *fields, kihavute_count fields_len,
                           const float *tables, kihavute_count tables_len, const float *lengths, kihavute_count lengths_len,
                           const uint32_t *commands, kihavute_count commands_len, uint64_t *answer, kihavute_count answer_len);

/* How long it is, in path units: answer[0] gets the bits of the last running length, 0 without a segment. */
uint32_t kihavute_path_length(const uint8_t *kinds, kihavute_count kinds_len, const float *fields, kihavute_count fields_len,
                              const float *tables, kihavute_count tables_len, const float *lengths, kihavute_count lengths_len,
                              const uint32_t *commands, kihavute_count commands_len, uint64_t *answer, kihavute_count answer_len);

/* Segment i, counted from 0: answer[0] gets its kind, answer[1] how many numbers stand from the start of out: its own 4, 6, 8, 11
 * or 11, then the 33 of its table for the kinds 1, 2 and 3; 44 places hold any segment. Where i is the count of segments or above,
 * the call is accepted and writes nothing. Refused with 12, then with 8 and the count needed. */
uint32_t kihavute_segment(const uint8_t *kinds, kihavute_count kinds_len, const float *fields, kihavute_count fields_len,
                          const float *tables, kihavute_count tables_len, const float *lengths, kihavute_count lengths_len,
                          const uint32_t *commands, kihavute_count commands_len, kihavute_count i,
                          float *out, kihavute_count out_len, uint64_t *answer, kihavute_count answer_len);

/* Where segment i is at a progress along itself, in path units: answer[0] and answer[1] get the bits of x and of y. The progress is
 * clamped to 0 and 1, and a NaN is 0. A line has a middle however short it is, where a path of at most 2^-23 is at its end. Where i
 * is the count of segments or above, the call is accepted and writes nothing; so with the two below. */
uint32_t kihavute_segment_position(const uint8_t *kinds, kihavute_count kinds_len, const float *fields, kihavute_count fields_len,
                                   const float *tables, kihavute_count tables_len, const float *lengths, kihavute_count lengths_len,
                                   const uint32_t *commands, kihavute_count commands_len, kihavute_count i, float along,
                                   uint64_t *answer, kihavute_count answer_len);

/* Where it heads there, with the length 1, or (0, 0) where nothing tells: the bits of x and of y. */
uint32_t kihavute_segment_tangent(const uint8_t *kinds, kihavute_count kinds_len, const float *fields, kihavute_count fields_len,
                                  const float *tables, kihavute_count tables_len, const float *lengths, kihavute_count lengths_len,
                                  const uint32_t *commands, kihavute_count commands_len, kihavute_count i, float along,
                                  uint64_t *answer, kihavute_count answer_len);

/* That direction in degrees from the x axis towards the y axis: answer[0] gets the bits. */
uint32_t kihavute_segment_rotation(const uint8_t *kinds, kihavute_count kinds_len, const float *fields, kihavute_count fields_len,
                                   const float *tables, kihavute_count tables_len, const float *lengths, kihavute_count lengths_len,
                                   const uint32_t *commands, kihavute_count commands_len, kihavute_count i, float along,
                                   uint64_t *answer, kihavute_count answer_len);

/* ---- Queries of a stored path ----
 * Each call checks the whole path first, which reads every kind, table, length and command number once, and refuses with 12
 * where the check fails. That takes 0.2 to 0.3 ns for each number stored (docs/BENCH.md), so the time of a single query grows
 * with the path. Ask for one place now and then by the single queries; to file many packets of one flight, collect their
 * progresses and ask by kihavute_places or kihavute_flights, which check the path once for all of them. */

/* What is flown at this progress, six values: answer[0] and [1] get the bits of the point's x and y, in path units, [2] and [3]
 * those of the direction, which has the length 1, or is (0, 0) where nothing tells; [4] the segment, counted from 0, and [5] the
 * bits of the raw parameter at which both were taken. A path without segments (kinds_len is 0) gives KIHAVUTE_NO_SEGMENT for the
 * segment and 0 for the rest. As progress rises the pair of segment and raw parameter never steps back (proved: docs/ORDER.md). */
uint32_t kihavute_flight(const uint8_t *kinds, kihavute_count kinds_len, const float *fields, kihavute_count fields_len,
                         const float *tables, kihavute_count tables_len, const float *lengths, kihavute_count lengths_len,
                         const uint32_t *commands, kihavute_count commands_len, float progress,
                         uint64_t *answer, kihavute_count answer_len);

/* That direction in degrees from the x axis towards the y axis: answer[0] gets the bits. */
uint32_t kihavute_rotation(const uint8_t *kinds, kihavute_count kinds_len, const float *fields, kihavute_count fields_len,
                           const float *tables, kihavute_count tables_len, const float *lengths, kihavute_count lengths_len,
                           const uint32_t *commands, kihavute_count commands_len, float progress,
                           uint64_t *answer, kihavute_count answer_len);

/* The segment at each of many progresses, and its raw parameter, in the order of the progresses: segments and raws get one place
 * for each, from their starts, as kihavute_flight gives them: on a path without segments KIHAVUTE_NO_SEGMENT and 0. answer[0]
 * gets the count of progresses. Refused, with nothing written, with 12, then with 8 and the two counts needed. Progresses in
 * rising order pass over the path once; in another order each one starts at a mark, at most 256 of which are set once. */
uint32_t kihavute_places(const uint8_t *kinds, kihavute_count kinds_len, const float *fields, kihavute_count fields_len,
                         const float *tables, kihavute_count tables_len, const float *lengths, kihavute_count lengths_len,
                         const uint32_t *commands, kihavute_count commands_len,
                         const float *progresses, kihavute_count progresses_len, uint32_t *segments, kihavute_count segments_len,
                         float *raws, kihavute_count raws_len, uint64_t *answer, kihavute_count answer_len);

/* All of what is flown at each of many progresses: segments and raws as kihavute_places fills them, and four numbers for each in
 * out, x, y, the direction's x and y, from its start, as kihavute_flight gives them. answer[0] gets the count of progresses.
 * Refused, with nothing written, with 12, then with 8 and the three counts needed. */
uint32_t kihavute_flights(const uint8_t *kinds, kihavute_count kinds_len, const float *fields, kihavute_count fields_len,
                          const float *tables, kihavute_count tables_len, const float *lengths, kihavute_count lengths_len,
                          const uint32_t *commands, kihavute_count commands_len,
                          const float *progresses, kihavute_count progresses_len, uint32_t *segments, kihavute_count segments_len,
                          float *raws, kihavute_count raws_len, float *out, kihavute_count out_len,
                          uint64_t *answer, kihavute_count answer_len);

/* A dry run: where each second of a recorded flight lies. speeds has the ground speed of each second in whole millimetres per
 * second, and the path's unit is the metre. Second k, from 0, is judged after its own speed is added: its target is the float
 * nearest to the exact sum of speeds[0] to speeds[k] divided by 1,000, ties to even, and it is looked up as a length along the
 * path. segments[k] gets the segment reached, counted from 0, and raws[k] its raw parameter; answer[0] gets the count of seconds.
 * The first segment's 0 until something is flown, the last segment's 1 from the second on that reaches the total, and throughout on
 * a path whose total is at most 2^-23. A path without segments gives KIHAVUTE_NO_SEGMENT and 0. A later second never lies before an
 * earlier one (proved: docs/ORDER.md). Refused, with nothing written, in this order: 12; 13 with the count of seconds, where it is
 * above 36,000; 13 with the first speed that is above 100,000; 8 with the two counts needed. */
uint32_t kihavute_dry_run(const uint8_t *kinds, kihavute_count kinds_len, const float *fields, kihavute_count fields_len,
                          const float *tables, kihavute_count tables_len, const float *lengths, kihavute_count lengths_len,
                          const uint32_t *commands, kihavute_count commands_len, const uint32_t *speeds, kihavute_count speeds_len,
                          uint32_t *segments, kihavute_count segments_len, float *raws, kihavute_count raws_len,
                          uint64_t *answer, kihavute_count answer_len);

/* ---- The station tool ----
 * A plan is the number of stations, 2 to 1,000, in 1 to 9 digits, a LF, and path data of at most 4,096 bytes and 256 commands.
 * Its listing is text, each line with a LF and its fields apart by a space: the commands, the segments and the stations, each
 * section after its word and its count. A command has its letter, its numbers, and last the offset of the letter that made it, in
 * bytes from the start of the path data; a segment the name of its kind, its running length, and last the number of its command,
 * from 0; a station its number, its segment, or - where there is none, its place and its direction, station k of n at the progress
 * k / (n - 1). Floats are the eight hexadecimal digits of their bits, all else is decimal. In the listing of `M0 0L3 4` the second
 * command is `L 40400000 40800000 4` and its segment `line 40A00000 1`. A plan that is refused has one line: `refused`, the number
 * and what it carries; more than 256 commands are 8 with the letters, the numbers and the offsets that they have. */

/* Writes the listing of a plan from the start of output: answer[0] gets how many bytes it has, and what stands past them stays.
 * A plan that is refused is accepted here: its listing says so. Refused with 8, and answer[0] is how many bytes the listing
 * has, where output has fewer places; then nothing is written. Every listing fits in 69,632 places, and into as many it is written
 * with the work done once; into fewer it is measured first. It holds the buffers of a path on its stack: call it from a thread
 * with more than 64 KiB. Nothing probes the stack on 32-bit Arm: the stack pointer moves by 55,296 bytes at once there, past a guard
 * page, and kihavute_read's by 21,504. */
uint32_t kihavute_stations(const uint8_t *input, kihavute_count input_len, uint8_t *output, kihavute_count output_len,
                           uint64_t *answer, kihavute_count answer_len);

/* Checks a listing that another tool wrote against the one that kihavute_stations writes for the same plan. A line is its bytes and
 * its LF, or what follows the last LF. answer[0] gets 0 where the lines are the same, which is where the bytes are; else the number,
 * from 1, of the first line that is wrong, missing or extra. So without its last LF the last line is wrong, an LF too many is an
 * extra line, and an empty listing misses line 1. The listing of a plan that is refused is its one line. output gets our listing
 * from its start. Refused with 8, and answer[0] is how many bytes our listing has, where output has fewer places; then nothing is
 * written. Every listing fits in 69,632 places. It takes the stack of kihavute_stations. */
uint32_t kihavute_check_listing(const uint8_t *plan, kihavute_count plan_len, const uint8_t *listing, kihavute_count listing_len,
                                uint8_t *output, kihavute_count output_len, uint64_t *answer, kihavute_count answer_len);

/* ---- The season report ----
 * A season is plan after plan: a line with the plan's byte count in 1 to 9 digits and a LF, then exactly so many bytes of path data,
 * without the number of stations that kihavute_stations takes; the next line starts at once. A plan is read and built as
 * kihavute_stations does, at most 4,096 bytes and 256 commands, and weighed: path units are metres, the total is turned into whole
 * millimetres, ties to even, and more than 1,000,000,000 are refused with 13. The bytes of a longer plan are passed over. A line that is
 * no byte count, or whose count exceeds what follows, is a refusal with 13 and ends the input.
 * Its sheet is text, each line with a LF: `readings` and the accepted plans; `refusals`, `letters` and `kinds`, each with its count of
 * lines, a line being a name and a count, zeros left out; `lengths 0` without an accepted plan, else `lengths 3` and the shortest, the
 * longest and the sum, in millimetres, a line each. Letters, kinds and lengths are those of accepted plans alone. */

/* Writes the sheet of a season from the start of output: answer[0] gets how many bytes it has, at most 1,024, and what stands past
 * them stays. An input without a plan is accepted: its sheet says so. Refused, with nothing written, with 13 and 17179869184 for more
 * plans than that, refused ones among them, then with 8 and the bytes of the sheet where output has fewer places. It holds the buffers
 * of a path on its stack: call it from a thread with more than 64 KiB. */
uint32_t kihavute_season(const uint8_t *input, kihavute_count input_len, uint8_t *output, kihavute_count output_len,
                         uint64_t *answer, kihavute_count answer_len);

/* ---- From bits to floats ---- */

/* The float that has these bits: C defines a union read so, and in C++ gcc and clang do. */
static inline float kihavute_float(uint32_t bits) {
    union {
        uint32_t bits;
        float value;
    } both;
    both.bits = bits;
    return both.value;
}

/* The two coordinates of a returned point. */
static inline float kihavute_x(uint64_t point) { return kihavute_float((uint32_t)point); }
static inline float kihavute_y(uint64_t point) { return kihavute_float((uint32_t)(point >> 32)); }

/* ---- Whether this processor's floats are those of the proofs ---- */

/* 1 where sums round to nearest and subnormals are kept, else 0: call it once in each thread, and after each change of the float
 * registers. Two sums by the library itself: 2^-149 + 0 is 0 where subnormals are flushed; 1 + 2^-24 + 2^-47 is 1 where sums round
 * down or towards 0; 1 + 2^-25 is above 1 where they round up, and -1 - 2^-25 below -1 where they round down. */
static inline int kihavute_floats_right(void) {
    uint64_t low = kihavute_add(kihavute_float(0x00000001), 1, 0, kihavute_float(0x33800001));
    uint64_t high = kihavute_add(1, -1, kihavute_float(0x33000000), kihavute_float(0xB3000000));
    return low == 0x3F80000100000001u && high == 0xBF8000003F800000u;
}

#ifdef __cplusplus
}
#endif

#endif
