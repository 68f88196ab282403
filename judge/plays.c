/* Plays a sound cave: every reading with noise of the proved library, and rounded as its book is. */
#include "inside.h"

#include "../survey/mathematics.h"
#include <stdlib.h>
#include <string.h>

/* What one play needs: samples, the sums of its passages, misses and u. */
struct stage {
    const struct judge_cave *cave;
    int16_t *samples;
    size_t at;
    const struct judge_off *off; /* of the next reading */
    struct judge_vector *sums;
    double *misses, *scratch, *u, *values;
    struct judge_played *played; /* what is kept: of all plays, or the misses of one loop */
    struct judge_vector *kept;
    size_t loop;
};

/* A sample is in units of 1/2048 of a standard deviation; its fraction is even from -1/2 to 1/2. */
static double gaussian(struct stage *s) { return s->samples[s->at++] / 2048.0; }
static double even(struct stage *s) { return ((s->samples[s->at++] & 2047) + 0.5) / 2048 - 0.5; }

static size_t samples_of(const struct survey_leg *leg) {
    size_t count = leg->slope_by == SURVEY_BY_PLUMB ? 4 : 2;
    for (size_t j = 0; j < leg->reading_count; j++) count += judge_is_played(&leg->readings[j]) ? 2 : 0;
    return count;
}

static const struct survey_leg *played_leg(const struct judge_cave *cave, size_t edge) {
    const struct judge_edge *e = &cave->edges[edge];
    return e->kind == JUDGE_LEG && e->passage != JUDGE_NONE ? &cave->survey->legs[e->index] : NULL;
}

static bool is_played_fix(const struct judge_edge *e) { return e->kind == JUDGE_FIX && e->passage != JUDGE_NONE; }

/* What the readings of a leg are off by. */
static void note_offs(struct judge_cave *cave, const struct survey_leg *leg, size_t *count) {
    for (size_t j = 0; j < leg->reading_count; j++) {
        const struct survey_reading *r = &leg->readings[j];
        if (judge_is_played(r)) cave->offs[(*count)++] = (struct judge_off){judge_sd_of(cave, r), judge_rounding_of(r)};
    }
}

static bool note_all_offs(struct judge_cave *cave) {
    size_t count = 0;
    cave->offs = malloc((cave->samples / 2 + 1) * sizeof *cave->offs);
    for (size_t j = 0; cave->offs != NULL && j < cave->edge_count; j++) {
        const struct survey_leg *leg = played_leg(cave, j);
        if (leg != NULL) note_offs(cave, leg, &count);
    }
    return cave->offs != NULL;
}

bool judge_count_samples(struct judge_cave *cave) {
    cave->trips = malloc((cave->survey->trip_count + 1) * sizeof *cave->trips);
    if (cave->trips == NULL) return false;
    for (size_t j = 0; j < cave->survey->trip_count; j++) cave->trips[j] = JUDGE_NONE;
    for (size_t j = 0; j < cave->edge_count; j++) {
        const struct survey_leg *leg = played_leg(cave, j);
        if (is_played_fix(&cave->edges[j])) cave->samples += 2;
        if (leg == NULL) continue;
        cave->samples += samples_of(leg);
        if (cave->trips[leg->trip] == JUDGE_NONE) cave->trips[leg->trip] = cave->trip_count++;
    }
    cave->samples += 2 * cave->trip_count;
    return note_all_offs(cave);
}

/* The error of a leg's end, in metres. */
static struct judge_vector error_of_leg(struct stage *s, const struct judge_edge *e, const struct survey_leg *leg,
                                        double trip) {
    double *values = s->values, end[3];
    for (size_t j = 0; j < leg->reading_count; j++) {
        const struct survey_reading *r = &leg->readings[j];
        values[j] = r->value;
        if (!judge_is_played(r)) continue;
        values[j] += s->off->sd * gaussian(s);
        values[j] += s->off++->rounding * even(s);
        if (judge_is_compass(r)) values[j] += trip;
    }
    survey_vector_of(leg, values, end);
    struct judge_vector error = {end[0] - e->vector.east, end[1] - e->vector.north};
    error.east += e->station * sqrt(2) * gaussian(s);
    error.north += e->station * sqrt(2) * gaussian(s);
    if (leg->slope_by != SURVEY_BY_PLUMB) return error;
    error.east += judge_plumb_sd_of(s->cave, leg) * gaussian(s);
    error.north += judge_plumb_sd_of(s->cave, leg) * gaussian(s);
    return error;
}

static struct judge_vector error_of_fix(struct stage *s, const struct judge_edge *e) {
    double east = sqrt(e->spread.east) * gaussian(s);
    return (struct judge_vector){east, sqrt(e->spread.north) * gaussian(s)};
}

/* The errors of all passages. */
static void play_legs(struct stage *s) {
    const struct judge_cave *cave = s->cave;
    const int16_t *trips = s->samples + cave->samples - 2 * cave->trip_count;
    double trip_sd = cave->sigmas.given[JUDGE_TRIP] ? cave->sigmas.of[JUDGE_TRIP] : 0;
    memset(s->sums, 0, cave->passage_count * sizeof s->sums[0]);
    s->at = 0;
    s->off = cave->offs;
    for (size_t j = 0; j < cave->edge_count; j++) {
        const struct survey_leg *leg = played_leg(cave, j);
        const struct judge_edge *e = &cave->edges[j];
        struct judge_vector error;
        if (leg != NULL) error = error_of_leg(s, e, leg, trip_sd * trips[2 * cave->trips[leg->trip]] / 2048.0);
        else if (is_played_fix(e)) error = error_of_fix(s, e);
        else continue;
        s->sums[e->passage].east += e->sign * error.east;
        s->sums[e->passage].north += e->sign * error.north;
    }
}

static struct judge_played play(struct stage *s) {
    const struct judge_cave *cave = s->cave;
    struct judge_played worst = {0, 0};
    play_legs(s);
    judge_misses(cave, s->sums, s->misses);
    judge_solved(cave, s->misses, s->scratch, s->u);
    for (size_t r = 0; r < cave->loop_count; r++) {
        struct judge_vector miss = {s->misses[2 * r], s->misses[2 * r + 1]};
        worst.worst_loop = fmax(worst.worst_loop, judge_form(cave->loops[r].own, miss));
    }
    worst.worst_passage = judge_statistic(cave, s->u);
    return worst;
}

static uint32_t play_some(struct stage *s, jabulghi_record *record, size_t count) {
    uint32_t number = JABULGHI_OK;
    for (size_t j = 0; number == JABULGHI_OK && j < count; j++) {
        number = jabulghi_block(record, s->samples, s->cave->samples);
        if (number != JABULGHI_OK) break;
        struct judge_played one = play(s);
        if (s->played != NULL) s->played[j] = one;
        else s->kept[j] = (struct judge_vector){s->misses[2 * s->loop], s->misses[2 * s->loop + 1]};
    }
    return number;
}

/* Moves a record to where a play starts. */
static uint32_t go_to(jabulghi_record *record, uint64_t play, uint64_t pairs) {
    if (pairs > 0 && play > UINT64_MAX / pairs) return JABULGHI_COUNT_FULL;
    return jabulghi_skip(record, play * pairs);
}

static uint32_t play_from(struct stage s, const uint32_t n[6], uint64_t first, size_t count) {
    jabulghi_record record;
    const struct judge_cave *cave = s.cave;
    uint32_t number = jabulghi_seed(n[0], n[1], n[2], n[3], n[4], n[5], &record);
    if (number == JABULGHI_OK) number = go_to(&record, first, cave->samples / 2);
    if (number != JABULGHI_OK) return number;
    s.samples = malloc((cave->samples + 1) * sizeof s.samples[0]);
    s.sums = malloc((cave->passage_count + 1) * sizeof s.sums[0]);
    s.misses = malloc((3 * cave->size + cave->most_readings + 1) * sizeof s.misses[0]);
    if (s.samples != NULL && s.sums != NULL && s.misses != NULL) {
        s.scratch = s.misses + cave->size;
        s.u = s.scratch + cave->size;
        s.values = s.u + cave->size;
        number = play_some(&s, &record, count);
    } else {
        number = JUDGE_NO_MEMORY;
    }
    free(s.samples);
    free(s.sums);
    free(s.misses);
    return number;
}

uint32_t judge_play(const struct judge_cave *cave, const uint32_t n[6], uint64_t first, size_t count,
                    struct judge_played *played) {
    return play_from((struct stage){.cave = cave, .played = played}, n, first, count);
}

uint32_t judge_play_loop(const struct judge_cave *cave, const uint32_t n[6], uint64_t first, size_t count, size_t loop,
                         struct judge_vector *misses) {
    return play_from((struct stage){.cave = cave, .kept = misses, .loop = loop}, n, first, count);
}
