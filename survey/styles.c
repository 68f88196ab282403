/* The data line: what the fields of a leg are. */
#include "reader.h"
#include <string.h>

const order DEFAULT_ORDER = {
    SURVEY_NORMAL, 5, 5, false, {FIELD_FROM, FIELD_TO, SURVEY_TAPE, SURVEY_COMPASS, SURVEY_CLINO}};

#define BIT(field) (1u << (field))

static const unsigned ENDS = BIT(FIELD_FROM) | BIT(FIELD_TO);
static const unsigned COMMON = BIT(FIELD_FROM) | BIT(FIELD_TO) | BIT(FIELD_STATION) | BIT(FIELD_DIRECTION) |
                               BIT(FIELD_NEWLINE) | BIT(FIELD_IGNORE) | BIT(FIELD_IGNORE_ALL);
static const unsigned LENGTHS =
    BIT(SURVEY_TAPE) | BIT(SURVEY_BACKTAPE) | BIT(SURVEY_FROM_COUNT) | BIT(SURVEY_TO_COUNT) | BIT(FIELD_COUNT);
static const unsigned BEARINGS = BIT(SURVEY_COMPASS) | BIT(SURVEY_BACKCOMPASS);
static const unsigned SLOPES = BIT(SURVEY_CLINO) | BIT(SURVEY_BACKCLINO);
static const unsigned DEPTHS =
    BIT(SURVEY_FROM_DEPTH) | BIT(SURVEY_TO_DEPTH) | BIT(SURVEY_DEPTH_CHANGE) | BIT(FIELD_DEPTH);
static const unsigned CHANGES = BIT(SURVEY_EASTING) | BIT(SURVEY_NORTHING) | BIT(SURVEY_ALTITUDE);

static const struct {
    const char *word;
    int field;
} FIELDS[] = {
    {"from", FIELD_FROM},
    {"to", FIELD_TO},
    {"station", FIELD_STATION},
    {"direction", FIELD_DIRECTION},
    {"tape", SURVEY_TAPE},
    {"length", SURVEY_TAPE},
    {"compass", SURVEY_COMPASS},
    {"bearing", SURVEY_COMPASS},
    {"clino", SURVEY_CLINO},
    {"gradient", SURVEY_CLINO},
    {"backtape", SURVEY_BACKTAPE},
    {"backlength", SURVEY_BACKTAPE},
    {"backcompass", SURVEY_BACKCOMPASS},
    {"backbearing", SURVEY_BACKCOMPASS},
    {"backclino", SURVEY_BACKCLINO},
    {"backgradient", SURVEY_BACKCLINO},
    {"fromdepth", SURVEY_FROM_DEPTH},
    {"todepth", SURVEY_TO_DEPTH},
    {"depth", FIELD_DEPTH},
    {"depthchange", SURVEY_DEPTH_CHANGE},
    {"fromcount", SURVEY_FROM_COUNT},
    {"tocount", SURVEY_TO_COUNT},
    {"count", FIELD_COUNT},
    {"counter", FIELD_COUNT},
    {"dx", SURVEY_EASTING},
    {"easting", SURVEY_EASTING},
    {"dy", SURVEY_NORTHING},
    {"northing", SURVEY_NORTHING},
    {"dz", SURVEY_ALTITUDE},
    {"altitude", SURVEY_ALTITUDE},
    {"newline", FIELD_NEWLINE},
    {"ignore", FIELD_IGNORE},
    {"ignoreall", FIELD_IGNORE_ALL},
};

static const struct {
    const char *word;
    int style;
} STYLES[] = {
    {"normal", SURVEY_NORMAL},     {"topofil", SURVEY_NORMAL},      {"diving", SURVEY_DIVING},
    {"cylpolar", SURVEY_CYLPOLAR}, {"cartesian", SURVEY_CARTESIAN}, {"nosurvey", STYLE_NOSURVEY},
    {"passage", STYLE_PASSAGE},    {"ignore", STYLE_PASSAGE},
};

static unsigned allowed_in(int style) {
    if (style == SURVEY_NORMAL) return COMMON | LENGTHS | BEARINGS | SLOPES;
    if (style == SURVEY_DIVING || style == SURVEY_CYLPOLAR) return COMMON | LENGTHS | BEARINGS | SLOPES | DEPTHS;
    return style == SURVEY_CARTESIAN ? COMMON | CHANGES : COMMON;
}

static bool has_one(unsigned seen, unsigned of) { return (seen & of) != 0; }
static bool has_all(unsigned seen, unsigned of) { return (seen & of) == of; }

static bool has_stations(unsigned seen, int style) {
    if (!has_one(seen, BIT(FIELD_STATION))) return has_all(seen, ENDS);
    return !has_one(seen, ENDS) && (has_one(seen, BIT(FIELD_NEWLINE)) || style == STYLE_NOSURVEY);
}

static bool has_length(unsigned seen) {
    return has_one(seen, BIT(SURVEY_TAPE) | BIT(SURVEY_BACKTAPE) | BIT(FIELD_COUNT)) ||
           has_all(seen, BIT(SURVEY_FROM_COUNT) | BIT(SURVEY_TO_COUNT));
}

static bool has_depth(unsigned seen) {
    return has_one(seen, BIT(FIELD_DEPTH) | BIT(SURVEY_DEPTH_CHANGE)) ||
           has_all(seen, BIT(SURVEY_FROM_DEPTH) | BIT(SURVEY_TO_DEPTH));
}

/* Without a clino legs are level. */
static bool is_enough(unsigned seen, int style) {
    if (!has_stations(seen, style)) return false;
    if (style == STYLE_NOSURVEY) return true;
    if (style == SURVEY_CARTESIAN) return has_all(seen, CHANGES);
    return has_length(seen) && has_one(seen, BEARINGS) && (style == SURVEY_NORMAL || has_depth(seen));
}

static bool add_field(reader *r, order *o, part word, unsigned *seen) {
    size_t which = 0, all = sizeof FIELDS / sizeof FIELDS[0];
    while (which < all && !is_word(word, FIELDS[which].word)) which++;
    if (which == all) return complain(r, NO_READING, word), false;
    int field = FIELDS[which].field;
    if ((allowed_in(o->style) & BIT(field)) == 0) return complain(r, OTHER_READING, word), false;
    if ((*seen & BIT(field)) != 0 && field != FIELD_IGNORE && field != FIELD_IGNORE_ALL)
        return complain(r, TWICE, word), false;
    if (o->count > 0 && o->fields[o->count - 1] == FIELD_IGNORE_ALL && field != FIELD_NEWLINE)
        return complain(r, NOT_LAST, word), false;
    if (o->count == MOST_FIELDS) return complain(r, MANY_READINGS, NO_WORD), false;
    if (field == FIELD_NEWLINE) o->newline = o->count;
    *seen |= BIT(field);
    o->fields[o->count++] = (uint8_t)field;
    return true;
}

/* What is shared between legs stands before the new line. */
static bool is_in_order(const order *o) {
    for (size_t j = o->newline; j < o->count; j++) {
        if (o->fields[j] == FIELD_STATION || o->fields[j] == FIELD_DEPTH || o->fields[j] == FIELD_COUNT) return false;
    }
    return true;
}

static void read_order(reader *r, int style) {
    order *o = allot(r, sizeof *o);
    unsigned seen = 0;
    part word;
    if (o == NULL) return;
    *o = (order){style, 0, 0, false, {0}};
    while (next_word(r, &word)) {
        if (!add_field(r, o, word, &seen)) return;
    }
    o->shared = has_one(seen, BIT(FIELD_STATION));
    if (!has_one(seen, BIT(FIELD_NEWLINE))) o->newline = o->count;
    if (!is_enough(seen, style) || !is_in_order(o)) {
        complain(r, FEW_READINGS, NO_WORD);
        return;
    }
    now(r)->fields = o;
}

/* Without words it begins a new traverse of the same style, which every command does. */
void take_data(reader *r) {
    static const order SKIPPED = {STYLE_PASSAGE, 0, 0, false, {0}};
    part word;
    size_t which = 0, all = sizeof STYLES / sizeof STYLES[0];
    if (!next_word(r, &word)) return;
    if (is_word(word, "default")) {
        now(r)->fields = &DEFAULT_ORDER;
        return;
    }
    while (which < all && !is_word(word, STYLES[which].word)) which++;
    if (which == all) {
        complain(r, NO_STYLE, word);
        return;
    }
    if (STYLES[which].style == STYLE_PASSAGE) now(r)->fields = &SKIPPED;
    else read_order(r, STYLES[which].style);
}
