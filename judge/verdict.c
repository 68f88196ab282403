/* What the plays say of a cave. */
#include "inside.h"

#include "../survey/mathematics.h"
#include <stdlib.h>

static int rising(double a, double b) { return (a > b) - (a < b); }
static int by_passage(const void *a, const void *b) {
    return rising(((const struct judge_played *)a)->worst_passage, ((const struct judge_played *)b)->worst_passage);
}
static int by_number(const void *a, const void *b) { return rising(*(const double *)a, *(const double *)b); }

/* How many of the numbers, which rise by `step` bytes, are at least x; a part in 10^9 is left to rounding. */
static size_t at_least(const char *numbers, size_t count, size_t step, double x) {
    size_t low = 0, high = count;
    while (low < high) {
        size_t middle = (low + high) / 2;
        if (*(const double *)(const void *)(numbers + middle * step) < x * (1 - 1e-9)) low = middle + 1;
        else high = middle;
    }
    return count - low;
}

double judge_share_of(double statistic, const struct judge_played *sorted, size_t plays) {
    size_t beyond = at_least((const char *)&sorted[0].worst_passage, plays, sizeof sorted[0], statistic);
    return (double)(beyond + 1) / (double)(plays + 1);
}

/* Loops that are worse than the worst loop of all but 5 % of sound caves. */
static bool find_bad_loops(struct judge_cave *cave, const struct judge_played *played, size_t plays,
                           struct judge_verdict *v) {
    double *worst = malloc((plays + 1) * sizeof *worst);
    if (worst == NULL) return false;
    for (size_t j = 0; j < plays; j++) worst[j] = played[j].worst_loop;
    qsort(worst, plays, sizeof worst[0], by_number);
    for (size_t r = 0; r < cave->loop_count; r++) {
        size_t beyond = at_least((const char *)worst, plays, sizeof worst[0], cave->loops[r].reach);
        cave->loops[r].bad = (double)(beyond + 1) < JUDGE_LIMIT * (double)(plays + 1);
        v->bad_loops += cave->loops[r].bad;
    }
    free(worst);
    return true;
}

/* λ of each passage; those with as many edges have the same. */
static void find_what_shows(struct judge_cave *cave, double limit) {
    for (size_t j = 0; j < cave->passage_count; j++) {
        struct judge_passage *p = &cave->passages[j];
        size_t like = 0;
        while (cave->passages[like].edges != p->edges) like++;
        p->shows = like < j ? cave->passages[like].shows : judge_shows(limit - p->chances);
    }
}

bool judge_verdict_of(struct judge_cave *cave, uint64_t first, struct judge_played *played, size_t plays,
                      struct judge_verdict *v) {
    *v = (struct judge_verdict){.first = first, .plays = plays, .p = 1, .sound = true};
    if (cave->loop_count == 0) return true;
    if (!find_bad_loops(cave, played, plays, v)) return false;
    qsort(played, plays, sizeof played[0], by_passage);
    v->p = judge_share_of(cave->statistic, played, plays);
    v->beyond = (uint64_t)llround(v->p * (double)(plays + 1)) - 1;
    v->sound = v->p >= JUDGE_LIMIT;
    v->too_well = 1 - judge_chi_above(cave->size, cave->misfit) < JUDGE_TOO_WELL;
    v->limit = played[(95 * plays + 99) / 100 - 1].worst_passage;
    v->shows = judge_shows(v->limit);
    find_what_shows(cave, v->limit);
    return judge_estimates(cave, v) && (v->sound || judge_suspects(cave, played, plays, v));
}

void judge_verdict_free(struct judge_verdict *v) { free(v->suspects); }

struct judge_vector judge_smallest(const struct judge_cave *cave, const struct judge_edge *e) {
    double length = hypot(e->vector.east, e->vector.north);
    if (e->passage == JUDGE_NONE || !(length > 0)) return (struct judge_vector){0, 0};
    struct judge_vector along = {e->vector.east / length, e->vector.north / length},
                        across = {along.north, -along.east};
    struct judge_spread hold = cave->passages[e->passage].hold;
    double shows = cave->passages[e->passage].shows, chord = shows / sqrt(judge_form(hold, across)) / (2 * length);
    return (struct judge_vector){shows / sqrt(judge_form(hold, along)), chord > 1 ? 0 : 2 * asin(chord) * (360 / TURN)};
}

double judge_hold(const struct judge_cave *cave) {
    double sum = 0;
    for (size_t j = 0; j < cave->passage_count; j++) sum += cave->passages[j].hold.east + cave->passages[j].hold.north;
    return sum;
}
