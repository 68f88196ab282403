/* Ellipses of equal likelihood. */
#include "tolerance.h"

#include "../survey/mathematics.h"

/* Runs are in whole millimetres: a variance below this is none. It stands in for it, so that what lies off the runs'
 * line, or off their only point, is beyond them all. */
#define NO_VARIANCE 1e-6

ellipse ellipse_of(covariance spread, vector centre) {
    double half = (spread.east - spread.north) / 2, middle = (spread.east + spread.north) / 2,
           longer = middle + hypot(half, spread.both);
    double shorter = longer > NO_VARIANCE ? (spread.east * spread.north - spread.both * spread.both) / longer : 0;
    double angle = atan2(spread.both, half) / 2;
    return (ellipse){centre, fmax(longer, NO_VARIANCE), fmax(shorter, NO_VARIANCE), cos(angle), sin(angle)};
}

/* The square of the distance from the centre in standard deviations (Mahalanobis). */
double reach(const ellipse *e, vector of) {
    double east = of.east - e->centre.east, north = of.north - e->centre.north;
    double along = east * e->cosine + north * e->sine, across = north * e->cosine - east * e->sine;
    return along * along / e->longer + across * across / e->shorter;
}

ellipse ellipse_of_runs(const tally *kept) { return ellipse_of(covariance_of(kept), mean_of(kept)); }
bool is_point(const ellipse *e) { return e->longer <= NO_VARIANCE; }
bool is_line(const ellipse *e) { return e->shorter <= NO_VARIANCE; }
