/* Plays of a loop: loops JOB PLAYS EAST NORTH BOTH, the last three being variances and covariance of the closed form,
 * in square millimetres. Prints the sums "moments TAB plays TAB east TAB north TAB east^2 TAB north^2 TAB east *
 * north"; how many plays miss by each whole number of millimetres, "distance TAB mm TAB how many", and by each
 * hundredth of the closed form's ellipse, "ellipse TAB hundredths TAB how many"; the first plays and those beyond 4.5
 * ellipses, "first TAB east TAB north" and "far TAB east TAB north". */
#include "jabulghi.h"
#include <math.h>
#include <stdio.h>
#include <stdlib.h>

enum { AT_ONCE = 100000, FIRST = 1000, MOST = 200000, STEPS = 1000 };

static uint8_t text[60000];
static int64_t misses[AT_ONCE][2], sums[5];
static uint64_t by_mm[MOST], by_ellipse[STEPS];
static double spread[3]; /* east, north, both */

static void fail(const char *what) {
    fprintf(stderr, "loops: %s\n", what);
    exit(1);
}

static void count(int first, const int64_t *miss) {
    double e = (double)miss[0], n = (double)miss[1], distance = hypot(e, n);
    double sigmas = sqrt((e * e * spread[1] + n * n * spread[0] - 2 * e * n * spread[2]) /
                         (spread[0] * spread[1] - spread[2] * spread[2]));
    const int64_t products[5] = {miss[0], miss[1], miss[0] * miss[0], miss[1] * miss[1], miss[0] * miss[1]};
    for (int j = 0; j < 5; j++) sums[j] += products[j];
    if (!(distance < MOST && sigmas < STEPS / 100)) fail("a miss of 200 m or of 10 ellipses");
    by_mm[(int)distance]++;
    by_ellipse[(int)(sigmas * 100)]++;
    if (first) printf("first\t%lld\t%lld\n", (long long)miss[0], (long long)miss[1]);
    if (sigmas >= 4.5) printf("far\t%lld\t%lld\n", (long long)miss[0], (long long)miss[1]);
}

static void print_counts(long long plays) {
    printf("moments\t%lld", plays);
    for (int j = 0; j < 5; j++) printf("\t%lld", (long long)sums[j]);
    printf("\n");
    for (int mm = 0; mm < MOST; mm++) {
        if (by_mm[mm]) printf("distance\t%d\t%llu\n", mm, (unsigned long long)by_mm[mm]);
    }
    for (int step = 0; step < STEPS; step++) {
        if (by_ellipse[step]) printf("ellipse\t%d\t%llu\n", step, (unsigned long long)by_ellipse[step]);
    }
}

int main(int argc, char **argv) {
    if (argc != 6) fail("loops JOB PLAYS EAST NORTH BOTH");
    FILE *job = fopen(argv[1], "rb");
    if (job == NULL) fail("no job");
    size_t length = fread(text, 1, sizeof text, job);
    fclose(job);
    long long plays = (long long)atof(argv[2]) / AT_ONCE * AT_ONCE;
    for (int j = 0; j < 3; j++) spread[j] = atof(argv[3 + j]);
    for (long long from = 0; from < plays; from += AT_ONCE) {
        uint32_t line;
        if (jabulghi_play(text, length, (uint64_t)from, misses, AT_ONCE, &line) != JABULGHI_OK)
            fail("the job is refused");
        for (int j = 0; j < AT_ONCE; j++) count(from == 0 && j < FIRST, misses[j]);
    }
    print_counts(plays);
}
