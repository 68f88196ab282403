/* What the loops say of the errors, and chi-square. */
#include "inside.h"

#include "../survey/mathematics.h"
#include <stdlib.h>

/* The chance that a chi-square of an even number of degrees of freedom is above x: exp(-y) (1 + y + y²/2 + ..), y = x
 * / 2. */
double judge_chi_above(size_t freedom, double x) {
    double y = x / 2, term = -y, sum = 0;
    if (!(x > 0)) return 1;
    for (size_t k = 0; k < freedom / 2; k++) {
        if (k > 0) term += log(y / (double)k);
        sum += exp(term);
    }
    return fmin(sum, 1);
}

double judge_chi_quantile(size_t freedom, double probability) {
    double low = 0, high = 2 * (double)freedom + 100;
    for (int j = 0; j < 60; j++) {
        double middle = (low + high) / 2;
        if (1 - judge_chi_above(freedom, middle) < probability) low = middle;
        else high = middle;
    }
    return high;
}

/* The largest station error that is looked for, in metres, and the variance that is tried first. */
#define MOST_STATION 100.0
#define LEAST_START 1e-8

/* The variance of stations that brings the misfit down to what is wanted, from two lesser ones on: 1 / Q rises with it
 * and bends down, so that the line through the last two points never passes the goal. */
static double variance_for(const struct judge_cave *cave, double wanted, double start, double *matrix) {
    double before = 0, now = start, least = 1 / judge_misfit_with(cave, 0, matrix), last = least, goal = 1 / wanted;
    for (int j = 0; j < 100 && least < goal && last < goal * (1 - 1e-9) && now < MOST_STATION * MOST_STATION; j++) {
        double reached = 1 / judge_misfit_with(cave, sqrt(now), matrix), slope = (reached - last) / (now - before);
        before = now;
        last = reached;
        now += (goal - reached) / slope;
    }
    return least < goal ? fmin(now, MOST_STATION * MOST_STATION) : 0;
}

bool judge_estimates(const struct judge_cave *cave, struct judge_verdict *v) {
    size_t n = cave->size;
    double most = judge_chi_quantile(n, 0.975), least = judge_chi_quantile(n, 0.025), q = cave->misfit;
    v->factor = (struct judge_estimate){sqrt(q / (double)n), sqrt(q / most), sqrt(q / least)};
    v->factor_without = n > 2 ? sqrt(fmax(q - cave->best_gain, 0) / (double)(n - 2)) : 0;
    double *matrix = malloc((n * n + 2 * n + 1) * sizeof *matrix);
    if (matrix == NULL) return false;
    double low = variance_for(cave, most, LEAST_START, matrix),
           value = variance_for(cave, (double)n, fmax(low, LEAST_START), matrix),
           high = variance_for(cave, least, fmax(value, LEAST_START), matrix);
    v->station = (struct judge_estimate){sqrt(value), sqrt(low), sqrt(high)};
    free(matrix);
    return true;
}

/* The chance that a point around (shift, 0), of standard deviation 1 in both directions, is farther than a radius from
 * the origin: strips of the circle, narrower towards its sides. */
static double chance_beyond(double shift, double radius) {
    enum { STRIPS = 400 };
    double sum = 0;
    for (int j = 0; j < STRIPS; j++) {
        double angle = ((j + 0.5) / STRIPS - 0.5) * (TURN / 2), x = radius * sin(angle), half = radius * cos(angle);
        sum += exp(-(x - shift) * (x - shift) / 2) * erf(half / sqrt(2)) * half;
    }
    return 1 - sum * (TURN / 2) / STRIPS / sqrt(TURN);
}

/* How often a blunder has to show for it to be called one that shows. */
#define OFTEN 0.8

/* By secants, which the smooth slope around the limit's radius allows. */
double judge_shows(double limit) {
    double radius = sqrt(fmax(limit, 0)), before = radius, now = radius + 1;
    if (chance_beyond(0, radius) >= OFTEN) return 0;
    double last = chance_beyond(before, radius) - OFTEN, at = chance_beyond(now, radius) - OFTEN;
    for (int j = 0; j < 20 && fabs(at) > 1e-12 && at != last; j++) {
        double next = now - at * (now - before) / (at - last);
        before = now;
        last = at;
        now = next;
        at = chance_beyond(now, radius) - OFTEN;
    }
    return now;
}
