// Compares what is left of a rotation's full turns with the C library's fmodf, by bits, for every finite f32 beyond 360 degrees of
// either sign. Up to 360 every pattern must stay, and so must infinity and NaN. oracle/turns_all compiles and runs it.
#include <math.h>
#include <stdint.h>
#include <stdio.h>
#include <string.h>

float turns_left(float degrees);

#define FULL 0x43B40000u
#define ENDLESS 0x7F800000u
#define SIGN 0x80000000u

static float of_bits(uint32_t b) { float x; memcpy(&x, &b, 4); return x; }
static uint32_t to_bits(float x) { uint32_t b; memcpy(&b, &x, 4); return b; }

static unsigned long bad;
static void fail(uint32_t a, uint32_t due)
{
    if (bad++ < 20) printf("WRONG at %08X: %08X, due %08X\n", a, to_bits(turns_left(of_bits(a))), due);
}

static void look(uint32_t a, uint32_t due)
{
    if (to_bits(turns_left(of_bits(a))) != due) fail(a, due);
}

int main(void)
{
    unsigned long kept = 0, left = 0;
    for (int sign = 0; sign < 2; sign++) {
        uint32_t s = sign ? SIGN : 0;
        for (uint32_t a = 0; a <= FULL; a++, kept++) look(s | a, s | a);
        for (uint32_t a = FULL + 1; a < ENDLESS; a++, left++) look(s | a, to_bits(fmodf(of_bits(s | a), 360.0f)));
        look(s | ENDLESS, s | ENDLESS);
        for (uint32_t a = ENDLESS + 1; a < SIGN; a += 4093, kept++) {
            float rest = turns_left(of_bits(s | a));
            if (rest == rest) fail(s | a, s | a);
        }
    }
    printf("%lu patterns beyond 360 as fmodf has them, %lu that stay; %lu wrong\n", left, kept, bad);
    return bad != 0;
}
