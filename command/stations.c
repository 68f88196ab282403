/* The errors of stations and of the clino, which a job has no place for: all of a run's together are one Gaussian
 * vector. */
#include "tolerance.h"

#include "../survey/mathematics.h"

#define TURN 6.283185307179586476925286766559

/* Each end of a leg is off by the station's error in east and in north; a clino that is off by an angle moves the end
 * along the leg by its rise times that. */
covariance more_of(const task *t) {
    double station = t->s.station, degree = t->s.clino * (TURN / 360);
    covariance sum = {0, 0, 0};
    for (size_t j = 0; j < t->shots.count; j++) {
        double angle = t->shots.shots[j].bearing * (TURN / 65536),
               rise = j < t->s.origin_count ? t->s.origins[j].rise * 1000 : 0;
        double along = rise * degree * rise * degree, both_ways = 2 * station * station;
        sum.east += along * sin(angle) * sin(angle) + both_ways;
        sum.north += along * cos(angle) * cos(angle) + both_ways;
        sum.both += along * sin(angle) * cos(angle);
    }
    return sum;
}

/* Where the pairs of this noise start: far behind all that runs can reach. */
#define FAR_PAIRS ((uint64_t)1 << 63)

uint32_t add_more(const task *t, uint64_t start, size_t runs) {
    jabulghi_record record;
    const uint32_t *n = t->s.seeds;
    int16_t pair[2];
    double east = sqrt(t->more.east), skew = east > 0 ? t->more.both / east : 0,
           north = sqrt(fmax(t->more.north - skew * skew, 0));
    if (!(t->more.east > 0) && !(t->more.north > 0)) return JABULGHI_OK;
    uint32_t number = jabulghi_seed(n[0], n[1], n[2], n[3], n[4], n[5], &record);
    if (number == JABULGHI_OK)
        number =
            t->first + start < FAR_PAIRS ? jabulghi_skip(&record, FAR_PAIRS + t->first + start) : JABULGHI_COUNT_FULL;
    for (size_t j = 0; number == JABULGHI_OK && j < runs; j++) {
        number = jabulghi_pair(&record, pair);
        t->misses[start + j][0] += llround(east * pair[0] / 2048);
        t->misses[start + j][1] += llround((skew * pair[0] + north * pair[1]) / 2048);
    }
    return number;
}
