/* The closed form: Gaussian errors of each leg's distance and bearing, independent of each other, added up. */
#include "tolerance.h"

#include "../survey/mathematics.h"

#define TURN 6.283185307179586476925286766559

const unsigned THOUSANDTHS[QUANTILES] = {500, 900, 950, 990, 999};

/* A noise is rounded to whole millimetres or steps, which adds a twelfth to its variance; no noise has none. */
static double variance_of(uint32_t sigma) { return sigma == 0 ? 0 : (double)sigma * sigma + 1.0 / 12; }

/* The covariance of one leg's end, exact for Gaussian errors: with h = exp(-variance of the bearing), E sin^2 (b +
 * error) = (1 - h^2 cos 2b) / 2, and so on. */
static covariance of_leg(const shot *s, double distance, double bearing) {
    double d = s->distance, angle = s->bearing * (TURN / 65536), sine = sin(angle), cosine = cos(angle);
    double h = exp(-bearing), rest = -expm1(-bearing); /* rest = 1 - h */
    double around = d * d * rest, along = distance * h * h, both_ways = distance * rest * (1 + h) / 2;
    return (covariance){
        around * ((1 + h) / 2 - sine * sine * h) + along * sine * sine + both_ways,
        around * ((1 + h) / 2 - cosine * cosine * h) + along * cosine * cosine + both_ways,
        sine * cosine * (along - around * h),
    };
}

/* The sum over the legs, and the rounding of east and north to whole millimetres. */
static covariance spread_of(const task *t) {
    double step = TURN / 65536, distance = variance_of(t->s.sigma[0]),
           bearing = variance_of(t->s.sigma[1]) * step * step;
    covariance sum = t->more;
    for (size_t j = 0; j < t->shots.count; j++) {
        covariance leg = of_leg(&t->shots.shots[j], distance, bearing);
        sum.east += leg.east;
        sum.north += leg.north;
        sum.both += leg.both;
    }
    if (sum.east > 1) sum.east += 1.0 / 12;
    if (sum.north > 1) sum.north += 1.0 / 12;
    return sum;
}

/* The probability that a Gaussian vector with these variances along its axes is no longer than a radius: an average
 * over directions. */
static double within_radius(double longer, double shorter, double radius) {
    enum { DIRECTIONS = 1024 };
    double sum = 0;
    for (int j = 0; j < DIRECTIONS; j++) {
        double angle = (j + 0.5) * TURN / 4 / DIRECTIONS, cosine = cos(angle), sine = sin(angle);
        sum -= expm1(-radius * radius / 2 / (longer * cosine * cosine + shorter * sine * sine));
    }
    return sum / DIRECTIONS;
}

/* The radius that so many thousandths of the vectors lie within, by halving; along one axis alone where shorter is 0.
 */
static double quantile(double longer, double shorter, unsigned thousandths) {
    double low = 0, high = 10 * sqrt(longer + shorter);
    if (!(longer > 0)) return 0;
    for (int j = 0; j < 60; j++) {
        double middle = (low + high) / 2,
               share = shorter > 0 ? within_radius(longer, shorter, middle) : erf(middle / sqrt(2 * longer));
        if (share * 1000 < thousandths) low = middle;
        else high = middle;
    }
    return high;
}

closed_form closed_form_of(const task *t) {
    closed_form closed = {.spread = spread_of(t)};
    covariance s = closed.spread;
    double middle = (s.east + s.north) / 2, root = hypot((s.east - s.north) / 2, s.both), longer = middle + root;
    double shorter = longer > 0 ? fmax(0, (s.east * s.north - s.both * s.both) / longer) : 0;
    closed.rms[EAST] = sqrt(s.east);
    closed.rms[NORTH] = sqrt(s.north);
    closed.rms[DISTANCE] = sqrt(s.east + s.north);
    for (int j = 0; j < QUANTILES; j++) {
        closed.within[EAST][j] = quantile(s.east, 0, THOUSANDTHS[j]);
        closed.within[NORTH][j] = quantile(s.north, 0, THOUSANDTHS[j]);
        closed.within[DISTANCE][j] = quantile(longer, shorter, THOUSANDTHS[j]);
    }
    return closed;
}

/* Steps of a millimetre, or of ten, a hundred and so on where there would be more than ten thousand of them in the
 * distance's root mean square. */
uint64_t width_for(const closed_form *closed) {
    uint64_t width = 1;
    while (closed->rms[DISTANCE] > 1e4 * (double)width) width *= 10;
    return width;
}
