/* The figures and the verdict, for a person. */
#include "tolerance.h"

#include "../survey/mathematics.h"
#include <inttypes.h>
#include <stdio.h>

/* At most so many candidates are printed. */
#define MOST_PRINTED 30

bool is_below(const tally *kept, unsigned thousandths) {
    return (double)(kept->beyond + 1) * 1000 < (double)thousandths * (double)(kept->runs + 1);
}

/* Two digits of a percentage that is small, whole percents of one that is not; of none, that it is less than one of
 * all. */
static const char *percent(char word[32], uint64_t some, uint64_t all) {
    double share = 100.0 * (double)(some == 0 ? 1 : some) / (double)all;
    snprintf(word, 32, share < 10 ? "%s%.2g" : "%s%.0f", some == 0 ? "less than " : "", share);
    return word;
}

static double length_of(const traverse *t) {
    double sum = 0;
    for (size_t j = 0; j < t->count; j++) sum += t->shots[j].distance;
    return sum;
}

static void describe(const task *t, const tally *kept, growing *to) {
    const uint32_t *n = t->s.seeds, *sigma = t->s.sigma;
    add(to, "%s: %zu legs, %.3f m\n", t->s.source.name, t->shots.count, length_of(&t->shots) / 1000);
    bool more = t->more.east + t->more.north > 0;
    add(to, "sigma: %" PRIu32 " mm of distance, %" PRIu32 " steps (%.3f degrees) of bearing", sigma[0], sigma[1],
        sigma[1] * 360 / 65536.0);
    if (more) add(to, ", %g mm of stations, %g degrees of the clino", t->s.station, t->s.clino);
    add(to, "\n%s\n", sentence(more ? MODELLED_MORE : MODELLED));
    add(to, SEEDS_LINE "\n", n[0], n[1], n[2], n[3], n[4], n[5]);
    add(to, "%" PRIu64 " runs, from run %" PRIu64 " on\n", kept->runs, kept->first);
    add(to, "miss without noise: east %" PRId64 ", north %" PRId64 ", distance %.0f mm\n\n", t->own[0], t->own[1],
        hypot((double)t->own[0], (double)t->own[1]));
}

/* Each figure of the runs with the closed form's beside it. */
static void tabulate(const task *t, const tally *kept, growing *to) {
    closed_form closed = closed_form_of(t);
    add(to, "noise in mm            east               north            distance   (closed: the closed form)\n");
    add(to, "              runs    closed      runs    closed      runs    closed\nrms     ");
    for (int j = 0; j < MEASURES; j++) add(to, "%10.1f%10.1f", rms_of(kept, j), closed.rms[j]);
    for (int row = 0; row < QUANTILES; row++) {
        add(to, "\n%4.4g %%  ", THOUSANDTHS[row] / 10.0);
        for (int j = 0; j < MEASURES; j++)
            add(to, "%10" PRIu64 "%10.1f", within_of(kept, j, THOUSANDTHS[row]), closed.within[j][row]);
    }
    add(to, "\n\n");
}

static void list_candidates(const task *t, const ellipse *e, growing *to) {
    static candidate found[2 * MOST_SHOTS];
    char word[32];
    size_t count = candidates_of(t, e, found);
    add(to, "%s\n", sentence(count == 0 ? NO_CANDIDATE : CANDIDATES));
    for (size_t j = 0; j < count && j < MOST_PRINTED; j++) {
        origin o = origin_of(&t->s, &t->shots, found[j].leg);
        add(to, "  leg %zu, %s to %s", found[j].leg + 1, o.from, o.to);
        if (t->s.about == SURVEY) add(to, " (%s:%zu)", o.file, o.line);
        add(to, ": ");
        add(to, found[j].bearing ? "bearing %+.1f degrees" : "distance %+.0f mm", found[j].correction);
        add(to, " (%s %%%s)\n", percent(word, (uint64_t)(found[j].remains * 1e6), 1000000),
            is_near_limit(&found[j]) ? ", near the limit" : "");
    }
    if (count > MOST_PRINTED) add(to, "  and %zu more\n", count - MOST_PRINTED);
}

static double bearing_of(vector v) {
    double degrees = atan2(v.east, v.north) * 57.29577951308232;
    return degrees < -0.5 ? degrees + 360 : fabs(degrees);
}

/* What the runs say of the miss, by their ellipse. */
static void judge(const task *t, const tally *kept, const ellipse *e, growing *to) {
    char beyond[32], farther[32];
    double distance = hypot(t->miss.east, t->miss.north);
    add(to, "%s: %.0f mm", t->given ? "the miss given" : "the miss", distance);
    if (distance >= 0.5)
        add(to, " at %.0f degrees, %.2g %% of the length", bearing_of(t->miss), 100 * distance / length_of(&t->shots));
    add(to, "; east %.10g, north %.10g\n", t->miss.east, t->miss.north);
    add(to, sentence(VERDICT), percent(beyond, kept->beyond, kept->runs), percent(farther, kept->farther, kept->runs));
    add(to, "\n%s\n",
        sentence(is_below(kept, UNLIKELY)   ? BLUNDER_LIKELY
                 : is_below(kept, DOUBTFUL) ? BLUNDER_POSSIBLE
                                            : NO_BLUNDER));
    if (is_below(kept, DOUBTFUL)) list_candidates(t, e, to);
}

void report(const task *t, const tally *kept, growing *to) {
    ellipse e = ellipse_of_runs(kept);
    describe(t, kept, to);
    tabulate(t, kept, to);
    if (is_point(&e)) add(to, "%s\n", sentence(ALL_ALIKE));
    else if (is_line(&e)) add(to, "%s\n", sentence(ON_A_LINE));
    judge(t, kept, &e, to);
}
