/* What is kept of many runs, in an order that does not depend on which thread played them. */
#include "tolerance.h"

#include "../survey/mathematics.h"
#include <errno.h>
#include <stdlib.h>
#include <string.h>

vector noise_of(const task *t, uint64_t run) {
    return (vector){(double)(t->misses[run][0] - t->own[0]), (double)(t->misses[run][1] - t->own[1])};
}

/* The step that a measure of a run falls into: the smallest whose end it does not pass. */
static uint64_t step_of(vector noise, int which, uint64_t width) {
    uint64_t east = (uint64_t)fabs(noise.east), north = (uint64_t)fabs(noise.north),
             square = east * east + north * north;
    if (which != DISTANCE) return ((which == EAST ? east : north) + width - 1) / width;
    uint64_t step = (uint64_t)(sqrt((double)square) / (double)width);
    while (step > 0 && (step - 1) * width * (step - 1) * width >= square) step--;
    while (step * width * step * width < square) step++;
    return step;
}

/* Leaves the steps that no run fell into out of the counts. */
static bool keep(histogram *h, const uint64_t *counts, size_t size) {
    h->size = 0;
    h->bars = malloc((size + 1) * sizeof h->bars[0]);
    for (size_t j = 0; h->bars != NULL && j < size; j++) {
        if (counts[j] > 0) h->bars[h->size++] = (bar){j, counts[j]};
    }
    return h->bars != NULL;
}

static bool count_steps(const task *t, int which, uint64_t width, histogram *h) {
    uint64_t most = 0;
    for (uint64_t run = 0; run < t->runs; run++) {
        uint64_t step = step_of(noise_of(t, run), which, width);
        if (step > most) most = step;
    }
    uint64_t *counts = calloc((size_t)most + 1, sizeof counts[0]);
    for (uint64_t run = 0; counts != NULL && run < t->runs; run++) counts[step_of(noise_of(t, run), which, width)]++;
    bool kept = counts != NULL && keep(h, counts, (size_t)most + 1);
    free(counts);
    return kept;
}

static void add_up(const task *t, tally *kept) {
    for (uint64_t run = 0; run < t->runs; run++) {
        vector noise = noise_of(t, run);
        kept->sum.east += noise.east;
        kept->sum.north += noise.north;
        kept->squares.east += noise.east * noise.east;
        kept->squares.north += noise.north * noise.north;
        kept->product += noise.east * noise.north;
    }
}

/* Runs that lie on or beyond the ellipse of all runs through the miss, or as far out as it. A part in 10^12 is left to
 * rounding. */
static void count_beyond(const task *t, tally *kept) {
    ellipse e = ellipse_of_runs(kept);
    double limit = reach(&e, t->miss) * (1 - 1e-12),
           distance = (t->miss.east * t->miss.east + t->miss.north * t->miss.north) * (1 - 1e-12);
    for (uint64_t run = 0; run < t->runs; run++) {
        vector noise = noise_of(t, run);
        kept->beyond += reach(&e, noise) >= limit;
        kept->farther += noise.east * noise.east + noise.north * noise.north >= distance;
    }
}

int tally_of(const task *t, uint64_t width, tally *kept) {
    *kept = (tally){.first = t->first, .runs = t->runs, .width = width};
    add_up(t, kept);
    count_beyond(t, kept);
    for (int which = 0; which < MEASURES; which++) {
        if (!count_steps(t, which, width, &kept->of[which])) return trouble("tolerance", strerror(ENOMEM));
    }
    return DONE;
}

vector mean_of(const tally *kept) {
    return (vector){kept->sum.east / (double)kept->runs, kept->sum.north / (double)kept->runs};
}

covariance covariance_of(const tally *kept) {
    vector mean = mean_of(kept);
    double runs = (double)kept->runs;
    return (covariance){
        fmax(0, kept->squares.east / runs - mean.east * mean.east),
        fmax(0, kept->squares.north / runs - mean.north * mean.north),
        kept->product / runs - mean.east * mean.north,
    };
}

double rms_of(const tally *kept, int which) {
    double squares = which == EAST    ? kept->squares.east
                     : which == NORTH ? kept->squares.north
                                      : kept->squares.east + kept->squares.north;
    return sqrt(squares / (double)kept->runs);
}

/* The least end of a step that at least so many thousandths of the runs lie within. */
uint64_t within_of(const tally *kept, int which, unsigned thousandths) {
    const histogram *h = &kept->of[which];
    uint64_t wanted = (kept->runs / 1000 * thousandths) + (kept->runs % 1000 * thousandths + 999) / 1000, found = 0;
    size_t at = 0;
    while (at + 1 < h->size && (found += h->bars[at].count) < wanted) at++;
    return h->bars[at].at * kept->width;
}
