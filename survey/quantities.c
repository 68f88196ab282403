/* Units, corrections and standard deviations of what is measured. */
#include "reader.h"

#include "mathematics.h"

/* Degrees. */
#define RADIAN (180 / 3.14159265358979323846)

/* Words for quantities; those of one number are one quantity. */
static const struct {
    const char *word;
    int is;
} WORDS[] = {
    {"tape", Q_TAPE},
    {"length", Q_TAPE},
    {"compass", Q_COMPASS},
    {"bearing", Q_COMPASS},
    {"clino", Q_CLINO},
    {"gradient", Q_CLINO},
    {"backtape", Q_BACKTAPE},
    {"backlength", Q_BACKTAPE},
    {"backcompass", Q_BACKCOMPASS},
    {"backbearing", Q_BACKCOMPASS},
    {"backclino", Q_BACKCLINO},
    {"backgradient", Q_BACKCLINO},
    {"depth", Q_DEPTH},
    {"count", Q_COUNT},
    {"counter", Q_COUNT},
    {"dx", Q_EASTING},
    {"easting", Q_EASTING},
    {"dy", Q_NORTHING},
    {"northing", Q_NORTHING},
    {"dz", Q_ALTITUDE},
    {"altitude", Q_ALTITUDE},
    {"declination", Q_DECLINATION},
    {"left", Q_WALLS},
    {"right", Q_WALLS},
    {"up", Q_WALLS},
    {"ceiling", Q_WALLS},
    {"down", Q_WALLS},
    {"floor", Q_WALLS},
    {"level", Q_LEVEL},
    {"plumb", Q_PLUMB},
    {"position", Q_POSITION},
};

static const unsigned BEARINGS = 1u << Q_COMPASS | 1u << Q_BACKCOMPASS | 1u << Q_DECLINATION;
static const unsigned SLOPES = 1u << Q_CLINO | 1u << Q_BACKCLINO;
static const unsigned ANGLES = 1u << Q_COMPASS | 1u << Q_BACKCOMPASS | 1u << Q_DECLINATION | 1u << Q_CLINO |
                               1u << Q_BACKCLINO | 1u << Q_LEVEL | 1u << Q_PLUMB;

/* What *sd alone has, and no unit or correction. */
static const unsigned DEVIATIONS = 1u << Q_LEVEL | 1u << Q_PLUMB | 1u << Q_POSITION;

/* Metres or degrees in a unit; percent is a slope. */
enum dimension { LENGTH, ANGLE, QUADRANT, PERCENT };
static const struct {
    const char *word;
    enum dimension is;
    double of;
} UNITS[] = {
    {"metres", LENGTH, 1},      {"meters", LENGTH, 1},         {"metric", LENGTH, 1},  {"feet", LENGTH, 0.3048},
    {"yards", LENGTH, 0.9144},  {"degrees", ANGLE, 1},         {"degs", ANGLE, 1},     {"grads", ANGLE, 0.9},
    {"mils", ANGLE, 0.9},       {"minutes", ANGLE, 1 / 60.0},  {"quads", QUADRANT, 1}, {"quadrants", QUADRANT, 1},
    {"percent", PERCENT, 0.01}, {"percentage", PERCENT, 0.01},
};

int quantity_of(enum survey_quantity what) {
    static const int OF[SURVEY_QUANTITIES] = {Q_TAPE,      Q_COMPASS, Q_CLINO,    Q_BACKTAPE, Q_BACKCOMPASS,
                                              Q_BACKCLINO, Q_DEPTH,   Q_DEPTH,    Q_DEPTH,    Q_COUNT,
                                              Q_COUNT,     Q_EASTING, Q_NORTHING, Q_ALTITUDE};
    return OF[what];
}

/* Standard deviations that Survex takes where *sd says none: its grade 5. */
static double default_sd(int of) {
    if (of == Q_LEVEL || of == Q_PLUMB) return 0.25;
    return (1u << of & ANGLES) != 0 ? 0.5 : 0.05;
}

void default_quantities(settings *s, bool units, bool corrections, bool deviations) {
    for (int j = 0; j < QUANTITIES; j++) {
        quantity *q = &s->of[j];
        if (units) q->unit = 1, q->form = SURVEY_NUMBER;
        if (corrections) q->zero = 0, q->scale = 1;
        if (deviations) q->sd = default_sd(j);
    }
    if (corrections) s->declination = 0, s->auto_declination = false;
}

/* ---- Lists of quantities, and units */

static int quantity_word(part word) {
    for (size_t j = 0; j < sizeof WORDS / sizeof WORDS[0]; j++) {
        if (is_word(word, WORDS[j].word)) return WORDS[j].is;
    }
    return -1;
}

/* The quantities that stand next, a bit for each; 0 where there is none. */
static unsigned next_quantities(reader *r) {
    unsigned found = 0;
    part word;
    while (peek_word(r, &word) && quantity_word(word) >= 0) {
        found |= 1u << quantity_word(word);
        next_word(r, &word);
    }
    if (found == 0) complain(r, NO_QUANTITY, word);
    return found;
}

/* Whether a unit is one of all these quantities. */
static bool suits(enum dimension unit, unsigned quantities) {
    unsigned allowed = unit == LENGTH ? ~ANGLES : unit == ANGLE ? ANGLES : unit == PERCENT ? SLOPES : BEARINGS;
    return (quantities & ~allowed) == 0;
}

/* The unit that a word names, which these quantities have; -1 where there is none. */
static int unit_of(reader *r, part word, unsigned quantities) {
    for (int j = 0; j < (int)(sizeof UNITS / sizeof UNITS[0]); j++) {
        if (!is_word(word, UNITS[j].word)) continue;
        if (!suits(UNITS[j].is, quantities)) return complain(r, WRONG_UNIT, word), -1;
        if (is_word(word, "mils")) remark(r, MILS, NO_WORD);
        return j;
    }
    complain(r, NO_UNIT, word);
    return -1;
}

/* ---- The commands */

void take_units(reader *r) {
    part word;
    double factor = 1;
    if (peek_word(r, &word) && is_word(word, "default")) {
        default_quantities(now(r), true, false, false);
        return;
    }
    unsigned of = next_quantities(r);
    next_word(r, &word);
    if (read_number(r, word, &factor, NULL)) next_word(r, &word);
    if (factor == 0) {
        complain(r, ZERO_FACTOR, NO_WORD);
        return;
    }
    int unit = of == 0 ? -1 : unit_of(r, word, of);
    if (unit < 0 || !ends_here(r)) return;
    for (int j = 0; j < QUANTITIES; j++) {
        if ((of & 1u << j) == 0) continue;
        now(r)->of[j].unit = factor * UNITS[unit].of;
        now(r)->of[j].form = UNITS[unit].is == PERCENT    ? SURVEY_PERCENT
                             : UNITS[unit].is == QUADRANT ? SURVEY_QUADRANT
                                                          : SURVEY_NUMBER;
    }
}

/* A zero in the unit of the quantity: an error of a slope in percent is so many hundredths of a radian, as in Survex.
 */
static double zero_in_unit(const quantity *q, double zero) {
    return zero * q->unit * (q->form == SURVEY_PERCENT ? RADIAN : 1);
}

/* A unit after the zero says that it was measured apart from the instrument, and has no scale. */
static void calibrate(reader *r, unsigned of, double zero, int unit, double scale) {
    settings *s = now(r);
    for (int j = 0; j < QUANTITIES; j++) {
        if ((of & 1u << j) == 0) continue;
        s->of[j].zero = unit < 0 ? zero_in_unit(&s->of[j], zero) : zero * UNITS[unit].of / scale;
        s->of[j].scale = scale;
    }
    if ((of & 1u << Q_DECLINATION) != 0) s->declination = -s->of[Q_DECLINATION].zero, s->auto_declination = false;
}

static bool are_alike(unsigned of) { return (of & ANGLES) == 0 || (of & ~ANGLES) == 0; }

void take_calibrate(reader *r) {
    part word;
    double zero, scale = 1;
    int unit = -1;
    if (peek_word(r, &word) && is_word(word, "default")) {
        default_quantities(now(r), false, true, false);
        return;
    }
    unsigned of = next_quantities(r);
    if (of == 0) return;
    if ((of & DEVIATIONS) != 0) {
        complain(r, NO_QUANTITY, NO_WORD);
        return;
    }
    if (!are_alike(of)) {
        complain(r, MIXED_QUANTITIES, NO_WORD);
        return;
    }
    if (!next_number(r, &zero)) return;
    bool more = next_word(r, &word);
    if (more && !read_number(r, word, &scale, NULL)) {
        unit = unit_of(r, word, of);
        if (unit < 0) return;
        if (next_word(r, &word) && !read_number(r, word, &scale, NULL)) {
            complain(r, BAD_NUMBER, word);
            return;
        }
    }
    if (scale == 0) {
        complain(r, ZERO_FACTOR, word);
        return;
    }
    if ((of & 1u << Q_DECLINATION) != 0 && scale != 1) {
        complain(r, DECLINATION_SCALE, word);
        return;
    }
    if (ends_here(r)) calibrate(r, of, zero, unit, scale);
}

void take_sd(reader *r) {
    part word;
    double sd;
    if (peek_word(r, &word) && is_word(word, "default")) {
        now(r)->sd_given = 0;
        {
            default_quantities(now(r), false, false, true);
            return;
        }
    }
    unsigned of = next_quantities(r);
    if (of == 0 || !next_number(r, &sd)) return;
    next_word(r, &word);
    int unit = unit_of(r, word, of);
    if (unit < 0 || !ends_here(r)) return;
    for (int j = 0; j < QUANTITIES; j++) {
        if ((of & 1u << j) != 0)
            now(r)->of[j].sd = fabs(sd) * UNITS[unit].of * (UNITS[unit].is == PERCENT ? RADIAN : 1);
    }
    now(r)->sd_given |= of;
}

void take_declination(reader *r) {
    part word;
    double declination;
    if (peek_word(r, &word) && is_word(word, "auto")) {
        remark(r, AUTO_DECLINATION, NO_WORD);
        now(r)->auto_declination = true;
        now(r)->declination = 0;
        return;
    }
    if (word.length == 0 || !read_number(r, word, &declination, NULL)) {
        complain(r, NO_DECLINATION, word);
        return;
    }
    next_word(r, &word);
    if (!next_word(r, &word)) {
        complain(r, NO_DECLINATION, word);
        return;
    }
    int unit = unit_of(r, word, 1u << Q_DECLINATION);
    if (unit < 0 || !ends_here(r)) return;
    now(r)->declination = declination * UNITS[unit].of;
    now(r)->auto_declination = false;
}

void take_default(reader *r) {
    static const char *const WHAT[] = {"calibrate", "data", "units", "all", NULL};
    part word;
    while (next_word(r, &word)) {
        int which = index_of(word, WHAT);
        if (which < 0) {
            complain(r, NO_QUANTITY, word);
            return;
        }
        if (which == 1 || which == 3) now(r)->fields = &DEFAULT_ORDER;
        default_quantities(now(r), which >= 2, which == 0 || which == 3, false);
    }
}
