/* What a leg's readings come to: length, bearing, slope and vector. */
#include "reader.h"

#include "mathematics.h"
#include <string.h>

/* Degrees. */
#define RADIAN (180 / 3.14159265358979323846)

/* A value and its variance; none where a reading is missing. */
typedef struct {
    bool known;
    double value, variance;
    enum survey_form form;
} measured;

/* All that readings say, by quantity. */
typedef struct {
    measured of[SURVEY_QUANTITIES];
} readings;

/* What follows from them. */
typedef struct {
    measured length, bearing, slope;
    enum survey_slope slope_by;
    double depth_variance, vector[3];
} result;

double survey_value_of(const struct survey_reading *one, double written) {
    if (one->form == SURVEY_WORD || one->form == SURVEY_OMITTED) return one->value;
    double measure = one->form == SURVEY_PERCENT ? atan(written * one->unit) * RADIAN : written * one->unit;
    return (measure - one->zero) * one->scale;
}

const struct survey_reading *survey_reading_of(const struct survey_leg *leg, enum survey_quantity what) {
    for (size_t j = 0; j < leg->reading_count; j++) {
        if (leg->readings[j].what == what) return &leg->readings[j];
    }
    return NULL;
}

static readings gather(const struct survey_reading *all, size_t count, const double *value) {
    readings found;
    memset(&found, 0, sizeof found);
    for (size_t j = 0; j < count; j++) {
        bool known = all[j].form != SURVEY_OMITTED;
        found.of[all[j].what] =
            (measured){known, value == NULL ? all[j].value : value[j], all[j].sd * all[j].sd, all[j].form};
    }
    return found;
}

/* ---- Means of fore- and backsight, weighed by their variances */

static measured mean_of(measured one, measured other) {
    if (!one.known) return other;
    if (!other.known) return one;
    double sum = one.variance + other.variance, share = sum > 0 ? other.variance / sum : 0.5;
    one.value = one.value * share + other.value * (1 - share);
    one.variance = sum > 0 ? one.variance * other.variance / sum : 0;
    return one;
}

/* An angle from -180 to less than 180. */
static double small_turn(double degrees) { return degrees - 360 * floor((degrees + 180) / 360); }

static double full_turn(double degrees) {
    double turned = fmod(degrees, 360);
    if (turned < 0) turned += 360;
    return turned < 360 ? turned : 0;
}

static measured length_of(const readings *m) {
    measured from = m->of[SURVEY_FROM_COUNT], to = m->of[SURVEY_TO_COUNT];
    if (to.known && from.known) return (measured){true, to.value - from.value, to.variance, SURVEY_NUMBER};
    return mean_of(m->of[SURVEY_TAPE], m->of[SURVEY_BACKTAPE]);
}

static measured bearing_of(const readings *m, double declination) {
    measured fore = m->of[SURVEY_COMPASS], back = m->of[SURVEY_BACKCOMPASS];
    if (fore.known && back.known) back.value = fore.value + small_turn(back.value - 180 - fore.value);
    else back.value -= 180;
    measured mean = mean_of(fore, back);
    if (mean.known) mean.value = full_turn(mean.value + declination);
    return mean;
}

static bool is_plumb(measured one) { return one.known && one.form == SURVEY_WORD && one.value != 0; }
static bool is_level(measured one) { return one.known && one.form == SURVEY_WORD && one.value == 0; }

static measured slope_of(const readings *m, enum survey_slope *by) {
    measured fore = m->of[SURVEY_CLINO], back = m->of[SURVEY_BACKCLINO];
    back.value = -back.value;
    measured mean = mean_of(fore, back);
    *by = !mean.known      ? SURVEY_UNKNOWN
          : is_plumb(mean) ? SURVEY_BY_PLUMB
          : is_level(mean) ? SURVEY_BY_LEVEL
                           : SURVEY_BY_CLINO;
    return mean;
}

/* ---- Vectors */

static void set_vector(result *e, double plan, double up) {
    double turn = e->bearing.value / RADIAN;
    e->vector[0] = plan * sin(turn);
    e->vector[1] = plan * cos(turn);
    e->vector[2] = up;
}

static void work_out_normal(const readings *m, result *e) {
    e->slope = slope_of(m, &e->slope_by);
    double rise = e->slope.value / RADIAN;
    if (e->slope_by == SURVEY_BY_PLUMB) set_vector(e, 0, e->slope.value > 0 ? e->length.value : -e->length.value);
    else set_vector(e, e->length.value * cos(rise), e->length.value * sin(rise));
}

/* A tape that is shorter than the change in depth: both are taken for as wrong as their variances say, as in Survex. */
static double shortened(const result *e, double change) {
    double tape = change < 0 ? -e->length.value : e->length.value, variance = e->length.variance;
    return (change * variance + tape * e->depth_variance) / (variance + e->depth_variance);
}

static void work_out_depths(const readings *m, enum survey_style style, result *e) {
    measured change = m->of[SURVEY_DEPTH_CHANGE], from = m->of[SURVEY_FROM_DEPTH], to = m->of[SURVEY_TO_DEPTH];
    double up = change.known ? change.value : to.value - from.value, length = e->length.value;
    e->slope_by = SURVEY_BY_HEIGHT;
    e->depth_variance = change.known ? change.variance : from.variance + to.variance;
    if (style == SURVEY_CYLPOLAR) set_vector(e, length, up);
    else if (fabs(up) > fabs(length) && e->length.variance + e->depth_variance > 0)
        set_vector(e, 0, length == 0 ? 0 : shortened(e, up));
    else set_vector(e, sqrt(fmax(0, length * length - up * up)), up);
    e->slope.value = e->vector[2] == 0 ? 0 : atan2(e->vector[2], hypot(e->vector[0], e->vector[1])) * RADIAN;
}

static void work_out_changes(const readings *m, result *e) {
    double east = m->of[SURVEY_EASTING].value, north = m->of[SURVEY_NORTHING].value, up = m->of[SURVEY_ALTITUDE].value,
           plan = hypot(east, north);
    e->slope_by = SURVEY_BY_HEIGHT;
    e->length = (measured){true, hypot(plan, up), m->of[SURVEY_EASTING].variance, SURVEY_NUMBER};
    e->bearing = (measured){true, plan > 0 ? full_turn(atan2(east, north) * RADIAN) : 0, 0, SURVEY_NUMBER};
    e->slope.value = e->length.value > 0 ? atan2(up, plan) * RADIAN : 0;
    memcpy(e->vector, (double[3]){east, north, up}, sizeof e->vector);
}

static result work_out(enum survey_style style, double declination, const readings *m) {
    result e;
    memset(&e, 0, sizeof e);
    if (style == SURVEY_CARTESIAN) return work_out_changes(m, &e), e;
    e.length = length_of(m);
    e.bearing = bearing_of(m, declination);
    if (style == SURVEY_NORMAL) work_out_normal(m, &e);
    else work_out_depths(m, style, &e);
    return e;
}

void survey_vector_of(const struct survey_leg *leg, const double *value, double vector[3]) {
    size_t each = leg->reading_count / leg->shots;
    double sum[3] = {0, 0, 0};
    for (size_t j = 0; j < leg->shots; j++) {
        readings m = gather(leg->readings + j * each, each, value + j * each);
        result e = work_out(leg->style, leg->declination, &m);
        for (int k = 0; k < 3; k++) sum[k] += e.vector[k];
    }
    for (int k = 0; k < 3; k++) vector[k] = sum[k] / (double)leg->shots;
}

/* ---- What is wrong with a leg, or worth a note */

static bool differ(measured one, measured other, double by) {
    return one.known && other.known && by * by > 9 * (one.variance + other.variance) + 1e-18;
}

static void note_differences(reader *r, const readings *m) {
    measured tape = m->of[SURVEY_TAPE], compass = m->of[SURVEY_COMPASS], clino = m->of[SURVEY_CLINO];
    measured backtape = m->of[SURVEY_BACKTAPE], backcompass = m->of[SURVEY_BACKCOMPASS],
             backclino = m->of[SURVEY_BACKCLINO];
    if (differ(tape, backtape, tape.value - backtape.value)) remark(r, TAPES_DIFFER, NO_WORD);
    if (differ(compass, backcompass, small_turn(compass.value - backcompass.value + 180)))
        remark(r, COMPASSES_DIFFER, NO_WORD);
    if (differ(clino, backclino, clino.value + backclino.value)) remark(r, CLINOS_DIFFER, NO_WORD);
}

static bool are_mixed(measured one, measured other) {
    return one.known && other.known && (is_plumb(one) != is_plumb(other) || is_level(one) != is_level(other));
}

/* Whether the readings make a leg of this style; where not, it is reported. */
static bool is_whole(reader *r, enum survey_style style, const readings *m, const result *e) {
    if (style == SURVEY_CARTESIAN) return true;
    if (are_mixed(m->of[SURVEY_CLINO], m->of[SURVEY_BACKCLINO])) return complain(r, MIXED_CLINOS, NO_WORD), false;
    if (!e->length.known) return complain(r, NO_TAPE, NO_WORD), false;
    if (e->slope_by != SURVEY_BY_PLUMB && !e->bearing.known) return complain(r, NO_COMPASS, NO_WORD), false;
    if (e->slope_by == SURVEY_BY_PLUMB && e->bearing.known) remark(r, COMPASS_ON_PLUMB, NO_WORD);
    if (style == SURVEY_DIVING && fabs(e->vector[2]) > fabs(e->length.value) + 1e-12) remark(r, SHORT_TAPE, NO_WORD);
    note_differences(r, m);
    return true;
}

/* ---- Legs */

static double sd_of(measured one) { return one.known ? sqrt(one.variance) : 0; }

/* The deviations in force; that of the slope is by what the slope is. */
static struct survey_sd deviations(const settings *s, const result *e) {
    static const int GIVEN[][2] = {[SURVEY_SD_TAPE] = {Q_TAPE, Q_BACKTAPE},
                                   [SURVEY_SD_COMPASS] = {Q_COMPASS, Q_BACKCOMPASS},
                                   [SURVEY_SD_CLINO] = {Q_CLINO, Q_BACKCLINO},
                                   [SURVEY_SD_DEPTH] = {Q_DEPTH, Q_DEPTH},
                                   [SURVEY_SD_POSITION] = {Q_POSITION, Q_POSITION}};
    struct survey_sd sd = {sd_of(e->length),     e->bearing.known ? sd_of(e->bearing) : s->of[Q_COMPASS].sd,
                           sd_of(e->slope),      s->of[Q_DEPTH].sd,
                           s->of[Q_POSITION].sd, 0};
    if (e->slope_by == SURVEY_BY_LEVEL) sd.clino = s->of[Q_LEVEL].sd;
    if (e->slope_by == SURVEY_BY_PLUMB) sd.clino = s->of[Q_PLUMB].sd;
    if (e->slope_by == SURVEY_UNKNOWN) sd.clino = s->of[Q_CLINO].sd;
    for (unsigned j = 0; j < sizeof GIVEN / sizeof GIVEN[0]; j++) {
        if ((s->sd_given & (1u << GIVEN[j][0] | 1u << GIVEN[j][1])) != 0) sd.given |= 1u << j;
    }
    return sd;
}

/* The readings of the traverse, those that legs share before the others, kept with the survey. */
static struct survey_reading *keep_readings(reader *r, size_t *count) {
    const traverse *t = &r->run;
    size_t shared = t->shared_count == 2 ? 2 : 0;
    struct survey_reading *kept = allot(r, (shared + t->count) * sizeof *kept);
    *count = shared + t->count;
    if (kept == NULL) return NULL;
    memcpy(kept, t->shared, shared * sizeof *kept);
    memcpy(kept + shared, t->readings, t->count * sizeof *kept);
    return kept;
}

/* Whether a leg repeats the one before, as electronic instruments shoot a leg several times. */
static bool repeats(const struct survey *s, const struct survey_leg *leg) {
    if (s->leg_count == 0) return false;
    const struct survey_leg *last = &s->legs[s->leg_count - 1];
    bool alike = last->style == leg->style && last->declination == leg->declination && last->slope_by == leg->slope_by;
    return alike && last->from == leg->from && last->to == leg->to &&
           last->reading_count / last->shots == leg->reading_count;
}

static double with_mean(double mean, size_t count, double one) { return mean + (one - mean) / (double)(count + 1); }

/* Works one more shot into the last leg: the mean of the vectors, as in Survex. */
static void add_shot(reader *r, const struct survey_leg *shot) {
    struct survey_leg *leg = &r->s->legs[r->s->leg_count - 1];
    size_t count = leg->shots, all = leg->reading_count + shot->reading_count;
    struct survey_reading *kept = allot(r, all * sizeof *kept);
    if (kept == NULL) return;
    memcpy(kept, leg->readings, leg->reading_count * sizeof *kept);
    memcpy(kept + leg->reading_count, shot->readings, shot->reading_count * sizeof *kept);
    leg->readings = kept, leg->reading_count = all, leg->shots = count + 1;
    leg->length = with_mean(leg->length, count, shot->length);
    leg->east = with_mean(leg->east, count, shot->east);
    leg->north = with_mean(leg->north, count, shot->north);
    leg->up = with_mean(leg->up, count, shot->up);
    double plan = hypot(leg->east, leg->north), less = sqrt((double)count / (double)(count + 1));
    if (plan > 0) leg->bearing = full_turn(atan2(leg->east, leg->north) * RADIAN);
    leg->slope = plan > 0 || leg->up != 0 ? atan2(leg->up, plan) * RADIAN : 0;
    leg->sd.tape *= less, leg->sd.compass *= less, leg->sd.clino *= less, leg->sd.depth *= less;
}

static void keep_leg(reader *r, struct survey_leg leg, const readings *m) {
    struct survey *s = r->s;
    const settings *in = now(r);
    result e = work_out(leg.style, leg.declination, m);
    if (!is_whole(r, leg.style, m, &e) || !room_for_one(r, &s->legs, s->leg_count, &r->leg_room, sizeof *s->legs))
        return;
    leg.slope_by = e.slope_by;
    leg.length = e.length.value, leg.bearing = e.bearing.known ? e.bearing.value : 0, leg.slope = e.slope.value;
    leg.east = e.vector[0], leg.north = e.vector[1], leg.up = e.vector[2];
    if (repeats(s, &leg)) {
        add_shot(r, &leg);
        return;
    }
    leg.surface = in->surface, leg.duplicate = in->duplicate;
    if (leg.surface) remark(r, SURFACE_LEGS, NO_WORD);
    if (leg.duplicate) remark(r, DUPLICATE_LEGS, NO_WORD);
    leg.sd = deviations(in, &e);
    leg.trip = trip_now(r);
    s->legs[s->leg_count++] = leg;
}

/* A tape of nothing, where that is taken for an equate. */
static bool is_equate(const reader *r) {
    const traverse *t = &r->run;
    for (size_t j = 0; j < t->count; j++) {
        if (t->readings[j].what == SURVEY_TAPE)
            return t->readings[j].form == SURVEY_NUMBER && t->readings[j].written == 0;
    }
    return false;
}

void add_leg(reader *r) {
    traverse *t = &r->run;
    struct survey_leg leg;
    size_t line = r->at.number;
    if (t->from_unnamed && t->to_unnamed) {
        complain(r, TWO_SPLAYS, NO_WORD);
        return;
    }
    if (t->from_unnamed || t->to_unnamed || now(r)->splay) {
        remark(r, SPLAYS, NO_WORD);
        return;
    }
    r->at.number = t->line;
    if (t->from == t->to) {
        complain(r, SAME_STATION, t->name);
    } else if (now(r)->infer_equates && is_equate(r)) {
        join_stations(r, t->from, t->to);
    } else {
        memset(&leg, 0, sizeof leg);
        leg.file = r->at.file, leg.line = t->line;
        leg.from = t->backwards ? t->to : t->from, leg.to = t->backwards ? t->from : t->to;
        leg.style = (enum survey_style)now(r)->fields->style;
        leg.shots = 1;
        leg.declination = now(r)->declination;
        leg.readings = keep_readings(r, &leg.reading_count);
        readings m = gather(leg.readings, leg.reading_count, NULL);
        if (!r->no_memory) keep_leg(r, leg, &m);
    }
    r->at.number = line;
}
