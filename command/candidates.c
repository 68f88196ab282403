/* Single legs whose correction would bring the miss within the noise: what could be, not what is. */
#include "tolerance.h"

#include "../survey/mathematics.h"
#include <stdlib.h>

#define TURN 6.283185307179586476925286766559

/* Below 5 % of sound surveys what remains of the miss is no noise. Other seeds make that share a little other: what is
 * near the limit is kept and marked. */
#define LEAST_SHARE 0.04
#define NEAR_SHARE 0.0625

bool is_near_limit(const candidate *c) { return c->remains < NEAR_SHARE; }

/* A correction has one free number, so that of the two of the miss one remains. */
static double share_of(double remains) { return erfc(sqrt(remains / 2)); }

/* Where the miss goes once a leg is turned. */
static vector turned(vector miss, const shot *s, double by) {
    double angle = s->bearing * (TURN / 65536);
    return (vector){miss.east + s->distance * (sin(angle + by) - sin(angle)),
                    miss.north + s->distance * (cos(angle + by) - cos(angle))};
}

/* The turn that leaves least: the best of half degrees, then ever smaller steps around it. */
static double best_turn(vector miss, const shot *s, const ellipse *e, double *left) {
    double best = 0;
    *left = reach(e, miss);
    for (int half_degrees = -359; half_degrees <= 360; half_degrees++) {
        double by = half_degrees * TURN / 720, reached = reach(e, turned(miss, s, by));
        if (reached < *left) best = by, *left = reached;
    }
    for (double step = TURN / 1440; step > 1e-9; step /= 2) {
        for (int side = -1; side <= 1; side += 2) {
            double reached = reach(e, turned(miss, s, best + side * step));
            if (reached < *left) best += side * step, *left = reached;
        }
    }
    return best;
}

/* The change of distance that leaves least: the reach is a square in it, with its least where the slope is 0. No
 * distance falls below 0. */
static double best_change(vector miss, const shot *s, const ellipse *e, double *left) {
    double angle = s->bearing * (TURN / 65536), east = miss.east - e->centre.east, north = miss.north - e->centre.north;
    double along = sin(angle) * e->cosine + cos(angle) * e->sine,
           across = cos(angle) * e->cosine - sin(angle) * e->sine;
    double slope = along * (east * e->cosine + north * e->sine) / e->longer +
                   across * (north * e->cosine - east * e->sine) / e->shorter;
    double change = fmax(-slope / (along * along / e->longer + across * across / e->shorter), -(double)s->distance);
    *left = reach(e, (vector){miss.east + change * sin(angle), miss.north + change * cos(angle)});
    return change;
}

static int by_what_remains(const void *a, const void *b) {
    const candidate *one = a, *other = b;
    if (one->remains != other->remains) return one->remains > other->remains ? -1 : 1;
    return one->leg != other->leg ? (one->leg > other->leg) - (one->leg < other->leg) : one->bearing - other->bearing;
}

size_t candidates_of(const task *t, const ellipse *e, candidate found[2 * MOST_SHOTS]) {
    size_t count = 0;
    for (size_t leg = 0; leg < t->shots.count; leg++) {
        const shot *s = &t->shots.shots[leg];
        double left, change = best_change(t->miss, s, e, &left);
        if (share_of(left) >= LEAST_SHARE) found[count++] = (candidate){leg, false, change, share_of(left)};
        double turn = best_turn(t->miss, s, e, &left);
        if (share_of(left) >= LEAST_SHARE) found[count++] = (candidate){leg, true, turn * 360 / TURN, share_of(left)};
    }
    qsort(found, count, sizeof found[0], by_what_remains);
    return count;
}
