// Runs sine and cosine of the proved library on every f32. Run it after a change of the crates `trig_rule` or `trig`:
//
//   gcc -O2 -ffp-contract=off oracle/trig_all.c target/native/libkihavute.a -lm -o trig_all
//   ./trig_all main trig.bin && ./trig_all tiny && ./trig_all far && python3 oracle/trig_whole.py trig.bin
//
// main: every angle from 2^-12 to 64 in size. The largest distance to the sine and cosine of the reduced angle r, which whole
//       numbers give exactly. They are taken in f64: r is rounded to 53 digits (off by at most 2^-52), and the machine's sin and
//       cos are off by less than 2^-52 more, as the sums through r^31/31! and r^30/30! are by less than 2^-64. The sine must be
//       odd and the cosine even, bit for bit. A file gets every 293rd angle and the 10,000 worst of each function.
// tiny: every angle below 2^-12 in size: the sine is the angle itself, and the cosine 1.
// far:  every other pattern, NaNs and infinities too: both answers are 7FC00000.
#include <math.h>
#include <stdint.h>
#include <stdio.h>
#include <stdlib.h>
#include <string.h>

float kihavute_sin(float x);
float kihavute_cos(float x);

#define TURN 0x6487ED5110B4611ULL
#define TINY 0x39800000u
#define REACH 0x42800000u
#define SIGN 0x80000000u
#define NANBITS 0x7FC00000u
#define KEPT 10000

static float of_bits(uint32_t b) { float x; memcpy(&x, &b, 4); return x; }
static uint32_t to_bits(float x) { uint32_t b; memcpy(&b, &x, 4); return b; }

static long bad;
static void fail(const char *what, uint32_t a) { if (bad++ < 20) printf("WRONG: %s at %08X\n", what, a); }

// the worst cases so far, the least of them first: a heap
typedef struct { double off; uint32_t bits; } Case;
static Case worst[2][KEPT];
static void keep(Case *heap, double off, uint32_t bits)
{
    if (off <= heap[0].off) return;
    int i = 0;
    for (;;) {
        int j = 2 * i + 1;
        if (j >= KEPT) break;
        if (j + 1 < KEPT && heap[j + 1].off < heap[j].off) j++;
        if (off <= heap[j].off) break;
        heap[i] = heap[j];
        i = j;
    }
    heap[i].off = off;
    heap[i].bits = bits;
}

static void put(FILE *out, uint32_t a)
{
    uint32_t row[3] = { a, to_bits(kihavute_sin(of_bits(a))), to_bits(kihavute_cos(of_bits(a))) };
    fwrite(row, 4, 3, out);
}

static void main_range(const char *path)
{
    double most[2] = { 0, 0 };
    uint32_t where[2] = { 0, 0 };
    FILE *out = path ? fopen(path, "wb") : 0;
    for (uint32_t a = TINY; a <= REACH; a++) {
        uint64_t x = (uint64_t)(a % 0x800000 + 0x800000) << (a / 0x800000 - 94); // |x|·2^56, exact
        uint64_t rest = x % TURN;
        int below = rest > TURN / 2;
        double r = ldexp((double)(below ? TURN - rest : rest), -56);
        float s = kihavute_sin(of_bits(a)), c = kihavute_cos(of_bits(a));
        double off[2] = { fabs((double)s - (below ? -sin(r) : sin(r))), fabs((double)c - cos(r)) };
        for (int k = 0; k < 2; k++) {
            if (!(off[k] <= 1)) fail("not a number near the sum", a);
            if (off[k] > most[k]) { most[k] = off[k]; where[k] = a; }
            keep(worst[k], off[k], a);
        }
        if (to_bits(kihavute_sin(of_bits(a | SIGN))) != (to_bits(s) ^ SIGN)) fail("sine not odd", a);
        if (to_bits(kihavute_cos(of_bits(a | SIGN))) != to_bits(c)) fail("cosine not even", a);
        if (out && a % 293 == 0) { put(out, a); put(out, a | SIGN); }
    }
    for (int k = 0; k < 2; k++) {
        printf("%s: %u angles, largest distance %.4g = 2^%.3f at %08X (allowed 2^-22)\n", k ? "cosine" : "sine", REACH - TINY + 1, most[k], log2(most[k]), where[k]);
        if (most[k] > 0x1p-22) fail("beyond 2^-22", where[k]);
        for (int i = 0; out && i < KEPT; i++) if (worst[k][i].bits) put(out, worst[k][i].bits);
    }
    if (out) fclose(out);
}

static void tiny_range(void)
{
    for (uint32_t a = 0; a < TINY; a++)
        for (uint32_t s = 0; s <= SIGN; s += SIGN) {
            if (to_bits(kihavute_sin(of_bits(a | s))) != (a | s)) fail("sine of a tiny angle", a | s);
            if (to_bits(kihavute_cos(of_bits(a | s))) != 0x3F800000) fail("cosine of a tiny angle", a | s);
            if (s) break;
        }
    printf("tiny: %u patterns of either sign\n", TINY);
}

static void far_range(void)
{
    for (uint32_t a = REACH + 1; a < SIGN; a++)
        for (uint32_t s = 0; s <= SIGN; s += SIGN) {
            if (to_bits(kihavute_sin(of_bits(a | s))) != NANBITS) fail("sine out of reach", a | s);
            if (to_bits(kihavute_cos(of_bits(a | s))) != NANBITS) fail("cosine out of reach", a | s);
            if (s) break;
        }
    printf("far: %u patterns of either sign\n", SIGN - REACH - 1);
}

int main(int argc, char **argv)
{
    const char *mode = argc > 1 ? argv[1] : "";
    if (!strcmp(mode, "main")) main_range(argc > 2 ? argv[2] : 0);
    else if (!strcmp(mode, "tiny")) tiny_range();
    else if (!strcmp(mode, "far")) far_range();
    else { fprintf(stderr, "trig_all main [FILE] | tiny | far\n"); return 2; }
    printf(bad ? "%ld WRONG\n" : "all right\n", bad);
    return bad != 0;
}
