/* What surveyors do wrong, each with its weight: what it would explain of the misses. The weights are a judgement, not
 * a measurement. */
#include "inside.h"

#include "../survey/mathematics.h"
#include <string.h>

/* An edge that is explained, and who takes the explanations. */
struct case_of {
    const struct judge_cave *cave;
    const struct survey_leg *leg;
    struct judge_vector vector, pull;
    struct judge_spread hold;
    judge_take *take;
    void *to;
};

/* A correction that moves a leg by less than 0.2 m is left out; a billionth is left to rounding. */
#define LEAST_MOVE (0.2 - 1e-9)

/* The chances of a free correction: half of all distances are off by less than this, and half of the legs left out are
 * shorter, in metres. */
#define MIDDLE_DISTANCE 2.0
#define MIDDLE_LEG 5.0
#define LEAST_LEG 0.5

/* The logarithm of how likely a gain is, next to that of the best explanation. Errors that are larger than they are
 * said to be make gains larger, too. */
static double likelihood(const struct case_of *c, double gain) {
    return (gain - c->cave->best_gain) / 2 / c->cave->excess;
}

/* How much likelier a length is in this cave than the leg's own, by the lengths of all legs: at most ten times, and at
 * least a tenth. */
#define MOST_LIKELIER 10.0
static double likelier(const struct case_of *c, double length) {
    double mean = c->cave->usual_length, sd = c->cave->spread_of_lengths, own = judge_leg_length(c->leg);
    if (!(own > 0) || !(length > 0)) return own > 0 ? 1 / MOST_LIKELIER : 1;
    double was = (log(own) - mean) / sd, is = (log(length) - mean) / sd;
    return fmin(fmax(own / length * exp((was * was - is * is) / 2), 1 / MOST_LIKELIER), MOST_LIKELIER);
}

static double length_of(const double end[3]) { return sqrt(end[0] * end[0] + end[1] * end[1] + end[2] * end[2]); }

/* A correction that is known. */
static void offer(const struct case_of *c, struct judge_explanation e, double weight) {
    if (hypot(e.move.east, e.move.north) < LEAST_MOVE) return;
    e.gain = judge_gain(c->pull, c->hold, e.move);
    e.mass = log(weight) + likelihood(c, e.gain);
    c->take(c->to, &e);
}

static struct judge_vector difference(const double end[3], struct judge_vector from) {
    return (struct judge_vector){end[0] - from.east, end[1] - from.north};
}

/* The move of the leg's end where its tapes, corrected, are something else; false where there is no tape, or one would
 * not be above 0. */
static bool tape_move(const struct case_of *c, double (*changed)(const struct survey_reading *r, double by), double by,
                      struct judge_vector *move, double *likely) {
    double *values = c->cave->values, end[3];
    bool any = false;
    for (size_t j = 0; j < c->leg->reading_count; j++) {
        const struct survey_reading *r = &c->leg->readings[j];
        values[j] = r->value;
        if (r->form != SURVEY_NUMBER || (r->what != SURVEY_TAPE && r->what != SURVEY_BACKTAPE)) continue;
        values[j] = changed(r, by);
        if (!(values[j] > 0)) return false;
        any = true;
    }
    survey_vector_of(c->leg, values, end);
    *move = difference(end, c->vector);
    *likely = any ? likelier(c, length_of(end)) : 0;
    return any;
}

static double longer(const struct survey_reading *r, double by) { return r->value + by; }
static double times_as_written(const struct survey_reading *r, double by) {
    return survey_value_of(r, r->written * by);
}

static void explain_distances(const struct case_of *c) {
    static const struct { double by, weight; } METRES[] = {{1, 3}, {2, 1}, {5, 2}, {10, 3}};
    static const double DECIMALS[] = {10, 0.1}, FEET[] = {0.3048, 1 / 0.3048};
    struct judge_explanation e = {0};
    double likely;
    for (size_t j = 0; j < 2 * sizeof METRES / sizeof METRES[0]; j++) {
        e.blunder = JUDGE_DISTANCE;
        e.correction = j % 2 == 0 ? METRES[j / 2].by : -METRES[j / 2].by;
        if (tape_move(c, longer, e.correction, &e.move, &likely)) offer(c, e, METRES[j / 2].weight * likely);
    }
    for (size_t j = 0; j < 2; j++) {
        e.blunder = JUDGE_DECIMAL;
        e.correction = DECIMALS[j];
        if (tape_move(c, times_as_written, DECIMALS[j], &e.move, &likely)) offer(c, e, likely);
        e.blunder = JUDGE_FEET;
        e.correction = FEET[j];
        if (tape_move(c, times_as_written, FEET[j], &e.move, &likely)) offer(c, e, likely);
    }
}

/* The move of a leg's end where it is turned, in degrees. */
static struct judge_vector turned(const struct case_of *c, double degrees) {
    double sine = sin(degrees * (TURN / 360)), cosine = cos(degrees * (TURN / 360));
    return (struct judge_vector){c->vector.east * (cosine - 1) + c->vector.north * sine,
                                 c->vector.north * (cosine - 1) - c->vector.east * sine};
}

static void explain_bearings(const struct case_of *c) {
    static const struct { double by, weight; } DEGREES[] = {{5, 2}, {10, 4}, {20, 1}, {90, 1}, {100, 2}};
    struct judge_explanation e = {.blunder = JUDGE_BEARING};
    for (size_t j = 0; j < 2 * sizeof DEGREES / sizeof DEGREES[0]; j++) {
        e.correction = j % 2 == 0 ? DEGREES[j / 2].by : -DEGREES[j / 2].by;
        e.move = turned(c, e.correction);
        offer(c, e, DEGREES[j / 2].weight);
    }
    offer(c, (struct judge_explanation){.blunder = JUDGE_BACKWARDS, .correction = 180, .move = turned(c, 180)}, 6);
}

/* The number that a text of digits and at most one point has; its sign and all else before the digits as they were. */
static double number_in(const char *text, double sign) {
    double number = 0, worth = 0;
    for (; *text != '\0'; text++) {
        if (*text == '.') worth = 1;
        if (*text < '0' || *text > '9') continue;
        number = number * 10 + (*text - '0');
        worth *= 10;
    }
    return worth > 0 ? sign * number / worth : sign * number;
}

/* Whether a book may have that number. */
static bool is_possible(const struct survey_reading *r, double written) {
    double measured = written * r->unit;
    switch (r->what) {
    case SURVEY_TAPE:
    case SURVEY_BACKTAPE: return survey_value_of(r, written) > 0;
    case SURVEY_COMPASS:
    case SURVEY_BACKCOMPASS: return measured >= 0 && measured <= 360;
    default: return fabs(measured) <= 90;
    }
}

/* A reading that should be another one. */
static void offer_reading(const struct case_of *c, size_t reading, const char *should_be, enum judge_blunder blunder,
                          double weight) {
    const struct survey_reading *r = &c->leg->readings[reading];
    double *values = c->cave->values, end[3], written = number_in(should_be, r->written < 0 ? -1 : 1);
    if (!is_possible(r, written)) return;
    for (size_t j = 0; j < c->leg->reading_count; j++)
        values[j] = j == reading ? survey_value_of(r, written) : c->leg->readings[j].value;
    survey_vector_of(c->leg, values, end);
    struct judge_explanation e = {
        .blunder = blunder, .reading = r, .correction = values[reading] - r->value, .move = difference(end, c->vector)};
    strcpy(e.should_be, should_be);
    offer(c, e, weight * likelier(c, length_of(end)));
}

/* Two neighbouring digits exchanged, a point between them or not. */
static void explain_exchanges(const struct case_of *c, size_t reading) {
    const char *text = c->leg->readings[reading].text;
    for (size_t at = 0; text[at] != '\0'; at++) {
        size_t next = at + 1 + (text[at + 1] == '.');
        if (text[at] < '0' || text[at] > '9' || text[next] < '0' || text[next] > '9' || text[at] == text[next])
            continue;
        char other[sizeof(((struct judge_explanation *)0)->should_be)];
        strcpy(other, text);
        other[at] = text[next];
        other[next] = text[at];
        offer_reading(c, reading, other, JUDGE_EXCHANGED, 1);
    }
}

/* A digit misread for one that looks like it. */
static void explain_misreadings(const struct case_of *c, size_t reading) {
    static const char ALIKE[][3] = {"06", "08", "14", "17", "27", "35", "38", "49", "56", "58", "68"};
    const char *text = c->leg->readings[reading].text;
    for (size_t at = 0; text[at] != '\0'; at++) {
        for (size_t j = 0; j < 2 * sizeof ALIKE / sizeof ALIKE[0]; j++) {
            if (text[at] != ALIKE[j / 2][j % 2]) continue;
            char other[sizeof(((struct judge_explanation *)0)->should_be)];
            strcpy(other, text);
            other[at] = ALIKE[j / 2][1 - j % 2];
            offer_reading(c, reading, other, JUDGE_MISREAD, 0.3);
        }
    }
}

/* Digits are looked for in plain decimals of tape, compass and clino. */
static bool has_digits(const struct survey_reading *r) {
    return r->form == SURVEY_NUMBER && r->what <= SURVEY_BACKCLINO &&
           strlen(r->text) < sizeof(((struct judge_explanation *)0)->should_be) &&
           strspn(r->text, "+-0123456789.") == strlen(r->text);
}

static void explain_digits(const struct case_of *c) {
    for (size_t j = 0; j < c->leg->reading_count; j++) {
        if (!has_digits(&c->leg->readings[j])) continue;
        explain_exchanges(c, j);
        explain_misreadings(c, j);
    }
}

static void explain_any_distance(const struct case_of *c) {
    double length = hypot(c->vector.east, c->vector.north);
    struct judge_vector along = {c->vector.east / length, c->vector.north / length};
    double hold = judge_form(c->hold, along),
           by = fmax(-(along.east * c->pull.east + along.north * c->pull.north) / hold, -length);
    struct judge_explanation e = {
        .blunder = JUDGE_ANY_DISTANCE, .correction = by, .move = {by * along.east, by * along.north}};
    double density = MIDDLE_DISTANCE / ((MIDDLE_DISTANCE + fabs(by)) * (MIDDLE_DISTANCE + fabs(by))) / 2;
    e.gain = judge_gain(c->pull, c->hold, e.move);
    double likely = likelier(c, judge_leg_length(c->leg) * (length + by) / length);
    e.mass = log(4 * likely * density * sqrt(TURN * c->cave->excess / hold)) + likelihood(c, e.gain);
    c->take(c->to, &e);
}

static double gain_of_turn(const struct case_of *c, double degrees) {
    return judge_gain(c->pull, c->hold, turned(c, degrees));
}

static void explain_any_bearing(const struct case_of *c) {
    struct judge_explanation e = {.blunder = JUDGE_ANY_BEARING, .gain = -INFINITY};
    double gains[360], sum = 0, step = 0.5;
    for (int j = 0; j < 360; j++) {
        gains[j] = j == 179 ? -INFINITY : gain_of_turn(c, j - 179); /* no turn is none */
        if (gains[j] > e.gain) e.gain = gains[j], e.correction = j - 179;
    }
    for (int j = 0; j < 360; j++) sum += exp(likelihood(c, gains[j]) - likelihood(c, e.gain));
    e.mass = log(6.0 / 360 * sum) + likelihood(c, e.gain);
    for (int j = 0; j < 10; j++, step /= 2) {
        double middle = e.correction;
        for (int side = -1; side <= 1; side += 2) {
            double gain = gain_of_turn(c, middle + side * step);
            if (gain > e.gain) e.gain = gain, e.correction = middle + side * step;
        }
    }
    e.move = turned(c, e.correction);
    c->take(c->to, &e);
}

/* A correction by any vector. */
static void explain_any_vector(const struct case_of *c, enum judge_blunder blunder, double weight) {
    struct judge_explanation e = {.blunder = blunder};
    e.gain = judge_best_gain(c->pull, c->hold, &e.move);
    double far = fmax(hypot(e.move.east, e.move.north), LEAST_LEG);
    double density = MIDDLE_LEG / ((MIDDLE_LEG + far) * (MIDDLE_LEG + far)) / (TURN * far);
    e.correction = hypot(e.move.east, e.move.north);
    double whole = c->hold.east * c->hold.north - c->hold.both * c->hold.both;
    e.mass = log(weight * density * TURN * c->cave->excess / sqrt(whole)) + likelihood(c, e.gain);
    c->take(c->to, &e);
}

void judge_explain(const struct judge_cave *cave, const struct judge_edge *e, judge_take *take, void *to) {
    const struct judge_passage *p = &cave->passages[e->passage];
    struct case_of c = {cave, NULL, e->vector, {e->sign * p->pull.east, e->sign * p->pull.north}, p->hold, take, to};
    if (e->kind == JUDGE_EQUATE) explain_any_vector(&c, JUDGE_EQUATED, 4);
    if (e->kind == JUDGE_FIX) explain_any_vector(&c, JUDGE_FIXED, 4);
    if (e->kind != JUDGE_LEG) return;
    c.leg = &cave->survey->legs[e->index];
    explain_distances(&c);
    explain_digits(&c);
    if (!(hypot(e->vector.east, e->vector.north) > 0)) return;
    explain_bearings(&c);
    explain_any_distance(&c);
    explain_any_bearing(&c);
}

void judge_explain_left_out(const struct judge_cave *cave, const struct judge_passage *p, judge_take *take, void *to) {
    struct case_of c = {cave, NULL, {0, 0}, p->pull, p->hold, take, to};
    if (p->legs > 0) explain_any_vector(&c, JUDGE_LEFT_OUT, 3);
}
