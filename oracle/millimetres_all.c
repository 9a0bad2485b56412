// Compares the whole millimetres of a total with f64's product by 1,000, which is exact, rounded to even, for every f32 from 0 up. Beyond
// 1,000,000,000 the answer is 1,000,000,001; of infinity and of a NaN it is 0. oracle/millimetres_all compiles and runs it.
#include <math.h>
#include <stdint.h>
#include <stdio.h>
#include <string.h>

uint64_t whole_millimetres(float total);

#define ENDLESS 0x7F800000u

static uint64_t due(uint32_t bits, float total)
{
    if (bits >= ENDLESS) return 0;
    double exact = (double)total * 1000;
    return exact > 1e9 + 0.5 ? 1000000001u : (uint64_t)nearbyint(exact);
}

int main(void)
{
    unsigned long bad = 0, beyond = 0;
    for (uint32_t bits = 0; bits < 0x80000000u; bits++) {
        float total;
        memcpy(&total, &bits, 4);
        uint64_t found = whole_millimetres(total), right = due(bits, total);
        beyond += right == 1000000001u;
        if (found != right && bad++ < 20) printf("WRONG at %08X: %llu, due %llu\n", bits, (unsigned long long)found, (unsigned long long)right);
    }
    printf("2147483648 totals, %lu beyond the limit, %lu wrong\n", beyond, bad);
    return bad != 0;
}
