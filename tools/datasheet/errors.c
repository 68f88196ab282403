/* How far samples are from the exact Box-Muller pair of (2k + 1) over 2^49 and v over 65536, in units of the sample,
 * the exact pair by long double (64 bits). errors SWEEP BITS, SWEEP being v (every v for some k) or k (many k for some
 * v), BITS 16 or 18. Prints for each 6400th of a unit that has errors "place TAB samples", then the worst: "worst TAB
 * which TAB k TAB v TAB sample TAB error". */
#include "jabulghi.h"
#include <inttypes.h>
#include <math.h>
#include <stdio.h>
#include <stdlib.h>
#include <string.h>

#define PLACES 6400 /* a place is 1/6400 of a unit */
#define MOST 0.75   /* no error is as large: the bound of 18 bits */

static uint64_t counts[2 * PLACES];
static struct {
    uint64_t k;
    uint32_t v;
    int32_t sample;
    long double error;
} worst[2];
static int wide;

static void fail(const char *what) {
    fprintf(stderr, "errors: %s\n", what);
    exit(1);
}

static void samples_of(uint64_t k, uint32_t v, int32_t *samples) {
    int16_t narrow[2];
    if ((wide ? jabulghi_sample18(k, v, samples) : jabulghi_sample(k, v, narrow)) != JABULGHI_OK)
        fail("a call is refused");
    for (int j = 0; j < 2 && !wide; j++) samples[j] = narrow[j];
}

static long double radius_of(uint64_t k) {
    long double u = (long double)(2 * k + 1) / 0x1p49L,
                rest = (long double)(((uint64_t)1 << 49) - 2 * k - 1) / 0x1p49L; /* both exact */
    return sqrtl(-2 * (u < 0.5L ? logl(u) : log1pl(-rest)));
}

static void compare(uint64_t k, uint32_t v, long double radius, const long double *rotation) {
    int32_t samples[2];
    samples_of(k, v, samples);
    for (int j = 0; j < 2; j++) {
        long double exact = radius * rotation[j] * (wide ? 0x1p13L : 0x1p11L), error = samples[j] - exact;
        if (fabsl(error) >= MOST) fail("an error of three quarters");
        counts[PLACES + (int)floorl(error * PLACES)]++;
        if (fabsl(error) <= fabsl(worst[j].error)) continue;
        worst[j].k = k, worst[j].v = v, worst[j].sample = samples[j], worst[j].error = error;
    }
}

/* The sine and the cosine of v over 65536 of a turn. */
static void rotation_of(uint32_t v, long double *rotation) {
    const long double turn = 6.283185307179586476925286766559L;
    long double angle = turn * (v % 16384) / 65536, sine = sinl(angle), cosine = cosl(angle);
    long double quarters[5] = {sine, cosine, -sine, -cosine, sine};
    memcpy(rotation, quarters + v / 16384, 2 * sizeof *rotation);
}

/* Every v, for 187 k: each power of two, one before it, half as much again, and as far from the end. */
static void sweep_v(void) {
    static long double rotations[65536][2];
    for (uint32_t v = 0; v < 65536; v++) rotation_of(v, rotations[v]);
    const uint64_t end = (uint64_t)1 << 48;
    for (int bit = 0; bit < 48; bit++) {
        uint64_t power = (uint64_t)1 << bit, some[] = {power - 1, power, power + power / 2, end - power};
        for (int j = 0; j < 4; j++) {
            long double radius = radius_of(some[j]);
            for (uint32_t v = 0; v < 65536; v++) compare(some[j], v, radius, rotations[v]);
        }
    }
}

/* Two million k, for v at quarter turns, beside them, at eighths, and between: all below 65536, others of 17 to 48
 * bits, and as far from the end. */
static void sweep_k(void) {
    static const uint32_t some[] = {0, 1, 16383, 16384, 32768, 49152, 8192, 40960, 2730, 5461, 12345, 54321};
    uint64_t z = 88172645463325252u, end = (uint64_t)1 << 48;
    for (int j = 0; j < 1000000; j++) {
        z ^= z << 13, z ^= z >> 7, z ^= z << 17;
        uint64_t k = j < 65536 ? (uint64_t)j : z >> (16 + j % 32);
        for (size_t i = 0; i < sizeof some / sizeof *some; i++) {
            long double rotation[2];
            rotation_of(some[i], rotation);
            compare(k, some[i], radius_of(k), rotation);
            compare(end - 1 - k, some[i], radius_of(end - 1 - k), rotation);
        }
    }
}

int main(int argc, char **argv) {
    if (argc != 3 || !strchr("vk", *argv[1])) fail("errors v|k 16|18");
    wide = strcmp(argv[2], "18") == 0;
    if (*argv[1] == 'v') sweep_v();
    else sweep_k();
    for (int j = 0; j < 2 * PLACES; j++) {
        if (counts[j]) printf("%d\t%" PRIu64 "\n", j - PLACES, counts[j]);
    }
    for (int j = 0; j < 2; j++) {
        printf("worst\t%s\t%" PRIu64 "\t%" PRIu32 "\t%" PRId32 "\t%.6Lf\n", j ? "second" : "first", worst[j].k,
               worst[j].v, worst[j].sample, worst[j].error);
    }
}
