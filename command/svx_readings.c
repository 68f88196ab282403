/* Readings for a leg that was played: its plan is the listing's, and it rises as it did. */
#include "svx.h"
#include <math.h>
#include <stdio.h>
#include <stdlib.h>
#include <string.h>

/* Degrees. */
#define RADIAN (180 / 3.14159265358979323846)

enum { MOST_READINGS = 40 /* of a shot */, MOST_MORE = 9 /* decimals that are added */ };

/* A leg as it is to be: metres and degrees. */
typedef struct {
    double plan, bearing, up, length;
} wanted_leg;

/* One shot of it: what its readings are to say, and how that is written. */
typedef struct {
    struct survey_leg leg;
    struct survey_reading readings[MOST_READINGS];
    double value[MOST_READINGS];
    bool changed[MOST_READINGS];
    char text[MOST_READINGS][48];
} rewriting;

static bool is_bearing(enum survey_quantity what) { return what == SURVEY_COMPASS || what == SURVEY_BACKCOMPASS; }

/* ---- What readings are to say */

static double value_of(const rewriting *w, enum survey_quantity what) {
    for (size_t j = 0; j < w->leg.reading_count; j++) {
        if (w->readings[j].what == what) return w->value[j];
    }
    return 0;
}

/* The length along a leg, as its style has it: depths stay, and a tape of cylpolar data is in plan. */
static double length_of(const rewriting *w, const wanted_leg *to) {
    const struct survey_reading *change = survey_reading_of(&w->leg, SURVEY_DEPTH_CHANGE);
    double depth = change != NULL ? change->value : value_of(w, SURVEY_TO_DEPTH) - value_of(w, SURVEY_FROM_DEPTH);
    if (w->leg.style == SURVEY_CYLPOLAR) return to->plan;
    return hypot(to->plan, w->leg.style == SURVEY_DIVING ? depth : to->up);
}

/* A leg of 0 mm has a tenth of one, so that its bearing is not lost and it is no equate; a plumb line has no bearing,
 * and a diver's compass is read whatever the tape says. */
static wanted_leg wanted_of(const rewriting *w, const shot *played) {
    bool plumb = w->leg.slope_by == SURVEY_BY_PLUMB && played->bearing == 0;
    wanted_leg to = {played->distance / 1000.0, played->bearing * (360 / 65536.0), w->leg.up, 0};
    bool dived = w->leg.style == SURVEY_DIVING && length_of(w, &to) > 0.0001;
    if (played->distance == 0 && !plumb && !dived) to.plan = 0.0001;
    to.length = length_of(w, &to);
    return to;
}

/* What a quantity is to be; what does not change has its own value. */
static double target_of(const rewriting *w, const wanted_leg *to, size_t j) {
    bool slopes = w->leg.style == SURVEY_NORMAL && to->plan > 0;
    double slope = atan2(to->up, to->plan) * RADIAN, turn = to->bearing / RADIAN,
           bearing = to->bearing - w->leg.declination;
    switch (w->readings[j].what) {
    case SURVEY_TAPE:
    case SURVEY_BACKTAPE: return to->length;
    case SURVEY_COMPASS: return bearing;
    case SURVEY_BACKCOMPASS: return bearing + 180;
    case SURVEY_CLINO: return slopes ? slope : w->value[j];
    case SURVEY_BACKCLINO: return slopes ? -slope : w->value[j];
    case SURVEY_TO_COUNT: return value_of(w, SURVEY_FROM_COUNT) + to->length;
    case SURVEY_EASTING: return to->plan * sin(turn);
    case SURVEY_NORTHING: return to->plan * cos(turn);
    default: return w->value[j];
    }
}

/* Whether a shot has a bearing that is not left out. */
static bool has_bearing(const rewriting *w) {
    for (size_t j = 0; j < w->leg.reading_count; j++) {
        if (is_bearing(w->readings[j].what) && w->readings[j].form != SURVEY_OMITTED) return true;
    }
    return false;
}

/* What is left out stays so, but for one bearing of a leg that is plumb no more. A reading that says it already stays
 * as it is written. */
static void set_targets(rewriting *w, const wanted_leg *to) {
    bool lacks = to->plan > 0 && !has_bearing(w);
    for (size_t j = 0; j < w->leg.reading_count; j++) {
        struct survey_reading *one = &w->readings[j];
        bool left_out = one->form == SURVEY_OMITTED && !(lacks && is_bearing(one->what));
        double target = left_out ? one->value : target_of(w, to, j);
        w->changed[j] = !left_out && (one->form == SURVEY_OMITTED || fabs(target - w->value[j]) > 1e-9);
        lacks = lacks && !(w->changed[j] && is_bearing(one->what));
        if (w->changed[j]) w->value[j] = target, one->form = one->as;
    }
}

/* ---- How a value is written */

/* The number that means a value in degrees or metres: survey_value_of the other way. A bearing is one of a full turn.
 */
static double written_for(const struct survey_reading *one, double value) {
    double read = value / one->scale + one->zero;
    if (is_bearing(one->what)) {
        double turn = 360 / fabs(one->scale);
        read -= turn * floor(read / turn);
    }
    return one->form == SURVEY_PERCENT ? tan(read / RADIAN) / one->unit : read / one->unit;
}

/* A number with so many decimals; zeros beyond the least of them are left out. The number that stands there. */
static double put_number(double number, int decimals, int least, char word[32]) {
    int length = snprintf(word, 32, "%.*f", decimals, number);
    if (length < 0 || length > 31) return NAN;
    for (; decimals > least && word[length - 1] == '0'; decimals--) word[--length] = '\0';
    return strtod(word, NULL);
}

/* N34E and the like. */
static double put_quadrant(double degrees, int decimals, char word[48]) {
    char digits[32];
    bool south = degrees > 90 && degrees<270, west = degrees> 180;
    double angle = put_number(fabs(south ? degrees - 180 : west ? degrees - 360 : degrees), decimals, 2, digits);
    snprintf(word, 48, "%c%s%c", south ? 'S' : 'N', digits, west ? 'W' : 'E');
    return south ? (west ? 180 + angle : 180 - angle) : west ? 360 - angle : angle;
}

/* The sign that stands for the decimal point in the readings of a shot. */
static char point_of(const rewriting *w) {
    for (size_t j = 0; j < w->leg.reading_count; j++) {
        const struct survey_reading *one = &w->leg.readings[j];
        if (one->form == SURVEY_NUMBER && one->decimals > 0)
            return one->text[strlen(one->text) - (size_t)one->decimals - 1];
    }
    return '.';
}

/* Writes one reading, with so many decimals more than the fewest, and takes the value that it then has. Five are enough
 * for a bearing in degrees. */
static void put_reading(rewriting *w, size_t j, double target, int more, char point) {
    const struct survey_reading *one = &w->readings[j];
    int least = is_bearing(one->what) ? 5 : 3;
    double number = written_for(one, target);
    if (is_bearing(one->what)) more = more > MOST_MORE ? more - MOST_MORE : 0;
    else if (more > MOST_MORE) more = MOST_MORE;
    if (one->form == SURVEY_QUADRANT) number = put_quadrant(number, least + more, w->text[j]);
    else number = put_number(number, least + more, least, w->text[j]);
    char *at = strchr(w->text[j], '.');
    if (at != NULL) *at = point;
    w->value[j] = survey_value_of(one, number);
}

/* ---- A shot */

/* Whether the readings give the plan that is wanted, less than a tenth of a millimetre and a thousandth of a degree
 * off, and its rise to half a millimetre. */
static bool is_met(const rewriting *w, const wanted_leg *to) {
    double vector[3], turn = to->bearing / RADIAN;
    survey_vector_of(&w->leg, w->value, vector);
    double along = vector[0] * sin(turn) + vector[1] * cos(turn),
           across = vector[0] * cos(turn) - vector[1] * sin(turn);
    bool rises = w->leg.style != SURVEY_NORMAL || fabs(vector[2] - to->up) < 5e-4;
    return rises && fabs(along - to->plan) < 1e-4 && fabs(across) < fmin(1e-4, 2e-5 * to->plan + 1e-12);
}

/* Writes all that changes, with as few decimals as are enough. */
static bool put_readings(rewriting *w, const wanted_leg *to) {
    double target[MOST_READINGS];
    char point = point_of(w);
    bool met = false;
    memcpy(target, w->value, sizeof target);
    for (int more = 0; more <= 2 * MOST_MORE && !met; more++) {
        for (size_t j = 0; j < w->leg.reading_count; j++) {
            if (w->changed[j]) put_reading(w, j, target[j], more, point);
        }
        met = is_met(w, to);
    }
    return met;
}

/* Adds the words of a shot in the order of its file. */
static bool add_words(const rewriting *w, size_t leg, edits *to) {
    if (!room_for(MOST_READINGS, &to->all, to->count, &to->room, sizeof *to->all)) return false;
    for (size_t j = 0; j < w->leg.reading_count; j++) {
        const struct survey_reading *one = &w->leg.readings[j];
        size_t place = to->count;
        if (!w->changed[j]) continue;
        for (; place > 0 && to->all[place - 1].leg == leg && to->all[place - 1].file == one->file &&
               to->all[place - 1].at > one->at;
             place--)
            to->all[place] = to->all[place - 1];
        edit *made = &to->all[place];
        *made = (edit){one->file, one->at, strlen(one->text), leg, ""};
        memcpy(made->text, w->text[j], sizeof made->text);
        to->count++;
    }
    return true;
}

/* The count that a leg ends with is the one that the next leg starts with, where both are one word of the file. */
static void keep_count(const rewriting *w, edits *to) {
    for (size_t j = 0; j < w->leg.reading_count; j++) {
        if (w->readings[j].what != SURVEY_TO_COUNT) continue;
        to->counted = w->readings[j];
        to->counted.value = w->value[j];
    }
}

static void take_readings(rewriting *w, const edits *before) {
    for (size_t j = 0; j < w->leg.reading_count; j++) {
        const struct survey_reading *one = w->readings + j, *counted = &before->counted;
        bool shared = one->what == SURVEY_FROM_COUNT && counted->text != NULL && counted->file == one->file &&
                      counted->at == one->at;
        w->value[j] = shared ? counted->value : one->value;
    }
}

bool add_edits(const struct survey *s, size_t leg, const shot *played, edits *to) {
    static rewriting w;
    const struct survey_leg *of = &s->legs[leg];
    size_t each = of->reading_count / of->shots;
    bool done = each <= MOST_READINGS;
    for (size_t j = 0; done && j < of->shots; j++) {
        const struct survey_reading *own = of->readings + j * each;
        w.leg = *of;
        w.leg.shots = 1, w.leg.reading_count = each, w.leg.readings = own;
        memcpy(w.readings, own, each * sizeof *own);
        take_readings(&w, to);
        wanted_leg wanted = wanted_of(&w, played);
        set_targets(&w, &wanted);
        w.leg.readings = w.readings;
        done = put_readings(&w, &wanted);
        w.leg.readings = own;
        done = done && add_words(&w, leg, to);
        keep_count(&w, to);
    }
    return done;
}
