/* xorshift64*, after the algorithm in S. Vigna, "An experimental exploration of
   Marsaglia's xorshift generators, scrambled" (amounts 12, 25, 27; multiplier
   2685821657736338717). The algorithm is in the public domain.

   Writes draw.txt on standard output: 400 lines
       STATE NEXT OUTPUT BITS DRAW
   STATE a state, NEXT the state after it, OUTPUT the paper's output there (NEXT times the
   multiplier), each as 16 hexadecimal digits; BITS the upper 24 bits of OUTPUT, and DRAW the
   binary32 pattern of BITS / 2^24, each as 8. With an argument it prints instead what Rosetta
   Code's task "Pseudo-random numbers/Xorshift star" asks for, as remembered: from the state 1234567
   the upper halves of five outputs, remembered as 3540625527, 2750739987, 4037983143, 1993361440
   and 3809424708, and from 987654321 how often each fifth is drawn in 100,000 draws, remembered as
   20103, 19922, 19937, 20031 and 20007. Neither that page nor the paper was opened.

   gcc -O2 -o xorshift64star xorshift64star.c && ./xorshift64star > draw.txt */
#include <stdint.h>
#include <stdio.h>
#include <string.h>

static uint64_t x; /* the state */

static uint64_t next(void) {
    x ^= x >> 12; /* a */
    x ^= x << 25; /* b */
    x ^= x >> 27; /* c */
    return x * UINT64_C(2685821657736338717);
}

static int lines;

/* one line for the state s; leaves the state after it in x */
static void line(uint64_t s) {
    x = s;
    uint64_t output = next();
    uint32_t bits = (uint32_t)(output >> 40);
    float draw = (float)bits / 16777216.0f;
    uint32_t pattern;
    memcpy(&pattern, &draw, 4);
    printf("%016llX %016llX %016llX %08X %08X\n", (unsigned long long)s, (unsigned long long)x,
           (unsigned long long)output, (unsigned)bits, (unsigned)pattern);
    lines++;
}

/* a state and its successors, n lines */
static void run(uint64_t s, int n) {
    for (int i = 0; i < n; i++) {
        line(s);
        s = x;
    }
}

static void rosetta(void) {
    x = 1234567;
    for (int i = 0; i < 5; i++) printf("%u\n", (unsigned)(next() >> 32));
    int counts[5] = {0};
    x = 987654321;
    for (int i = 0; i < 100000; i++) {
        double f = (double)(next() >> 32) / 4294967296.0;
        counts[(int)(f * 5)]++;
    }
    for (int i = 0; i < 5; i++) printf("%d: %d\n", i, counts[i]);
}

int main(int argc, char **argv) {
    (void)argv;
    if (argc > 1) {
        rosetta();
        return 0;
    }
    line(0);
    line(1);
    line(2);
    line(UINT64_C(1) << 63);
    line(UINT64_MAX);
    line(UINT64_C(0x9E3779B97F4A7C15));
    for (int k = 2; k < 63; k++) line(UINT64_C(1) << k);
    run(1234567, 20);
    run(987654321, 20);
    /* ones above, ones below */
    for (int k = 8; k < 64; k += 8) {
        line(UINT64_MAX << k);
        line(UINT64_MAX >> k);
    }
    /* the rest scattered: Steele, Lea and Flood's splitmix64 */
    for (uint64_t z = 0; lines < 400;) {
        z += UINT64_C(0x9E3779B97F4A7C15);
        uint64_t s = z;
        s = (s ^ (s >> 30)) * UINT64_C(0xBF58476D1CE4E5B9);
        s = (s ^ (s >> 27)) * UINT64_C(0x94D049BB133111EB);
        line(s ^ (s >> 31));
    }
    return 0;
}
