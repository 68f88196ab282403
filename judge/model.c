/* The errors of legs: what a reading may be off by, and what that does to the leg in plan. */
#include "inside.h"

#include "../survey/mathematics.h"
#include <stdlib.h>

/* The error that a reading's standard deviation is given by, or JUDGE_ERRORS where *sd alone has it. */
enum judge_error judge_error_of(enum survey_quantity what) {
    switch (what) {
    case SURVEY_TAPE:
    case SURVEY_BACKTAPE: return JUDGE_TAPE;
    case SURVEY_COMPASS:
    case SURVEY_BACKCOMPASS: return JUDGE_COMPASS;
    case SURVEY_CLINO:
    case SURVEY_BACKCLINO: return JUDGE_CLINO;
    default: return JUDGE_ERRORS;
    }
}

double judge_sd_of(const struct judge_cave *cave, const struct survey_reading *r) {
    enum judge_error error = judge_error_of(r->what);
    return error != JUDGE_ERRORS && cave->sigmas.given[error] ? cave->sigmas.of[error] : r->sd;
}

double judge_plumb_sd_of(const struct judge_cave *cave, const struct survey_leg *leg) {
    double degrees = cave->sigmas.given[JUDGE_CLINO] ? cave->sigmas.of[JUDGE_CLINO] : leg->sd.clino;
    return leg->length * degrees * (TURN / 360);
}

/* A word is not rounded, and a reading that is omitted has no error. */
bool judge_is_played(const struct survey_reading *r) { return r->form != SURVEY_WORD && r->form != SURVEY_OMITTED; }
bool judge_is_compass(const struct survey_reading *r) {
    return r->what == SURVEY_COMPASS || r->what == SURVEY_BACKCOMPASS;
}

double judge_rounding_of(const struct survey_reading *r) {
    if (r->form != SURVEY_NUMBER || r->decimals < 0) return 0;
    return pow(10, -r->decimals) * fabs(r->unit * r->scale);
}

/* How the leg's end goes as some of its readings go, in m per m or degree. */
static struct judge_vector slope_of(const struct judge_cave *cave, const struct survey_leg *leg,
                                    bool (*moves)(const struct survey_reading *r, const void *which),
                                    const void *which) {
    static const double STEP = 1e-4;
    double ends[2][3];
    for (int side = 0; side < 2; side++) {
        for (size_t j = 0; j < leg->reading_count; j++) {
            const struct survey_reading *r = &leg->readings[j];
            cave->values[j] = r->value + (moves(r, which) ? (side == 0 ? -STEP : STEP) : 0);
        }
        survey_vector_of(leg, cave->values, ends[side]);
    }
    return (struct judge_vector){(ends[1][0] - ends[0][0]) / (2 * STEP), (ends[1][1] - ends[0][1]) / (2 * STEP)};
}

static bool is_this(const struct survey_reading *r, const void *which) { return r == which; }
static bool is_any_compass(const struct survey_reading *r, const void *which) {
    return (void)which, judge_is_compass(r);
}

static void add_error(struct judge_spread *to, struct judge_vector slope, double variance) {
    to->east += slope.east * slope.east * variance;
    to->both += slope.east * slope.north * variance;
    to->north += slope.north * slope.north * variance;
}

static void add_even(struct judge_spread *to, double variance) {
    to->east += variance;
    to->north += variance;
}

static void model_leg(const struct judge_cave *cave, struct judge_edge *e) {
    const struct survey_leg *leg = &cave->survey->legs[e->index];
    e->vector = (struct judge_vector){leg->east, leg->north};
    e->turn = slope_of(cave, leg, is_any_compass, NULL);
    e->station = cave->sigmas.given[JUDGE_STATION] ? cave->sigmas.of[JUDGE_STATION] : leg->sd.position / sqrt(2);
    for (size_t j = 0; j < leg->reading_count; j++) {
        const struct survey_reading *r = &leg->readings[j];
        double sd = judge_sd_of(cave, r), rounding = judge_rounding_of(r);
        if (judge_is_played(r))
            add_error(&e->spread, slope_of(cave, leg, is_this, r), sd * sd + rounding * rounding / 12);
    }
    if (leg->slope_by == SURVEY_BY_PLUMB)
        add_even(&e->spread, judge_plumb_sd_of(cave, leg) * judge_plumb_sd_of(cave, leg));
    add_even(&e->spread, 2 * e->station * e->station);
}

double judge_leg_length(const struct survey_leg *leg) {
    return sqrt(leg->east * leg->east + leg->north * leg->north + leg->up * leg->up);
}

/* Legs of a cave differ in length at least as much as this, in the logarithm. */
#define LEAST_SPREAD 0.3

static void measure_lengths(struct judge_cave *cave) {
    double count = 0, sum = 0, squares = 0;
    for (size_t j = 0; j < cave->survey->leg_count; j++) {
        double length = judge_leg_length(&cave->survey->legs[j]);
        if (!(length > 0)) continue;
        count++;
        sum += log(length);
        squares += log(length) * log(length);
    }
    cave->usual_length = count > 0 ? sum / count : 0;
    cave->spread_of_lengths = sqrt(
        fmax(count > 0 ? squares / count - cave->usual_length * cave->usual_length : 0, LEAST_SPREAD * LEAST_SPREAD));
}

bool judge_model(struct judge_cave *cave) {
    for (size_t j = 0; j < cave->survey->leg_count; j++) {
        if (cave->survey->legs[j].reading_count > cave->most_readings)
            cave->most_readings = cave->survey->legs[j].reading_count;
    }
    cave->values = malloc((cave->most_readings + 1) * sizeof *cave->values);
    if (cave->values == NULL) return false;
    measure_lengths(cave);
    for (size_t j = 0; j < cave->edge_count; j++) {
        struct judge_edge *e = &cave->edges[j];
        if (e->kind == JUDGE_LEG) model_leg(cave, e);
        if (e->kind != JUDGE_FIX) continue;
        const struct survey_fix *fix = &cave->survey->fixes[e->index];
        double other = cave->sigmas.given[JUDGE_POINT] ? cave->sigmas.of[JUDGE_POINT] : JUDGE_POINT_ERROR;
        double east = fix->sd_east > 0 ? fix->sd_east : other, north = fix->sd_north > 0 ? fix->sd_north : other;
        e->vector = (struct judge_vector){fix->east, fix->north};
        e->spread = (struct judge_spread){east * east, 0, north * north};
    }
    return true;
}
