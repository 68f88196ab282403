/* Lines of data: their readings, and the legs that they make. */
#include "reader.h"

#include "mathematics.h"
#include <string.h>

/* ---- Readings */

static struct survey_reading reading_of(reader *r, enum survey_quantity what, part word) {
    const quantity *q = &now(r)->of[quantity_of(what)];
    struct survey_reading made = {what,    q->form, copy_of(r, word), r->at.file, r->at.number, 0,      -1, 0,
                                  q->unit, q->zero, q->scale,         0,          q->sd,        q->form};
    made.at = (size_t)(word.bytes - r->s->files[r->at.file].bytes);
    return made;
}

static bool is_omitted(const reader *r, part word) { return word.length == 1 && has_sign(r, word.bytes[0], SIGN_OMIT); }

static bool is_slope(enum survey_quantity what) { return what == SURVEY_CLINO || what == SURVEY_BACKCLINO; }
static bool is_bearing(enum survey_quantity what) { return what == SURVEY_COMPASS || what == SURVEY_BACKCOMPASS; }

static void check_number(reader *r, const struct survey_reading *one, part word) {
    double angle = one->form == SURVEY_PERCENT ? 0 : one->written * one->unit;
    bool from_zenith = one->zero > 45 && one->zero < 135; /* as Survex tells clinos that read 90 for level */
    if (is_bearing(one->what) && (angle < 0 || angle > 360 + 1e-9)) remark(r, LARGE_COMPASS, word);
    if (is_slope(one->what) && !from_zenith && fabs(angle) > 90 + 1e-9) remark(r, LARGE_CLINO, word);
    if ((one->what == SURVEY_TAPE || one->what == SURVEY_BACKTAPE) && one->written < 0) remark(r, NEGATIVE_TAPE, word);
}

/* The quarter of a turn that a letter stands for, or -1. */
static int quarter_of(uint8_t letter) {
    static const char POINTS[] = "NESW";
    for (int j = 0; j < 4; j++) {
        if ((letter & ~32) == POINTS[j]) return j;
    }
    return -1;
}

/* N, S34E and the like: degrees from north. */
static bool read_quadrant(const reader *r, part word, double *degrees, int *decimals) {
    int first = word.length > 0 ? quarter_of(word.bytes[0]) : -1;
    if (first < 0) return false;
    *decimals = 0;
    if (word.length == 1) return *degrees = 90.0 * first, true;
    int last = quarter_of(word.bytes[word.length - 1]);
    bool south = first == 2, west = last == 3;
    if (first % 2 != 0 || last % 2 != 1) return false;
    if (!read_number(r, (part){word.bytes + 1, word.length - 2}, degrees, decimals)) return false;
    if (*degrees < 0 || *degrees > 90) return false;
    if (south != west) *degrees = -*degrees;
    *degrees = fmod(*degrees + (south ? 180 : 360), 360);
    return true;
}

/* up, down and level are no readings, and have no corrections. */
static bool read_slope_word(part word, double *degrees) {
    static const char *const LEVEL[] = {"level", "h", NULL}, *const UP[] = {"up", "u", "+v", "v", NULL},
                             *const DOWN[] = {"down", "d", "-v", NULL};
    *degrees = index_of(word, UP) >= 0 ? 90 : index_of(word, DOWN) >= 0 ? -90 : 0;
    return *degrees != 0 || index_of(word, LEVEL) >= 0;
}

static bool is_optional(enum survey_quantity what) { return what <= SURVEY_BACKCLINO; }

static trouble_kind trouble_of(const struct survey_reading *one) {
    if (is_bearing(one->what)) return one->form == SURVEY_QUADRANT ? BAD_QUADRANT : BAD_COMPASS;
    if (is_slope(one->what)) return BAD_CLINO;
    return one->what == SURVEY_TAPE || one->what == SURVEY_BACKTAPE ? BAD_TAPE : BAD_NUMBER;
}

static bool take_reading(reader *r, enum survey_quantity what, part word, struct survey_reading *one) {
    *one = reading_of(r, what, word);
    if (is_optional(what) && is_omitted(r, word)) return one->form = SURVEY_OMITTED, true;
    if (is_slope(what) && read_slope_word(word, &one->value)) return one->form = SURVEY_WORD, true;
    bool taken = one->form == SURVEY_QUADRANT ? read_quadrant(r, word, &one->written, &one->decimals)
                                              : read_number(r, word, &one->written, &one->decimals);
    if (!taken) return complain(r, trouble_of(one), word), false;
    check_number(r, one, word);
    one->value = survey_value_of(one, one->written);
    bool plumbed = is_slope(what) && now(r)->infer_plumbs && fabs(fabs(one->written * one->unit) - 90) < 1e-9;
    if (plumbed) one->form = SURVEY_WORD, one->value = one->written * one->unit > 0 ? 90 : -90;
    return true;
}

/* ---- Stations */

/* Whether a word stands for a point without a name: -, ., .. and ..., each of them another point. */
static bool is_unnamed(const reader *r, part word) {
    bool points = word.length <= 3;
    for (size_t j = 0; j < word.length; j++) points = points && has_sign(r, word.bytes[j], SIGN_SEPARATOR);
    return points || is_word(word, "-");
}

static bool take_station(reader *r, part word, size_t *station, bool *unnamed) {
    r->run.name = word;
    *unnamed = is_unnamed(r, word);
    *station = *unnamed ? SURVEY_NONE : station_named(r, word);
    return *unnamed || *station != SURVEY_NONE;
}

/* ---- Fields */

/* A station that two legs share: the one before is where the next leg begins. */
static bool take_shared_station(reader *r, part word) {
    traverse *t = &r->run;
    t->has_from = t->has_to, t->from = t->to, t->from_unnamed = t->to_unnamed, t->has_to = true;
    return take_station(r, word, &t->to, &t->to_unnamed);
}

/* A depth or count that two legs share. */
static bool take_shared_reading(reader *r, enum survey_quantity from, enum survey_quantity to, part word) {
    traverse *t = &r->run;
    t->shared[0] = t->shared[1];
    t->shared[0].what = from;
    if (!take_reading(r, to, word, &t->shared[1])) return false;
    t->shared_count += t->shared_count < 2;
    return true;
}

static bool take_direction(reader *r, part word) {
    bool back = is_word(word, "b");
    if (!back && !is_word(word, "f")) return complain(r, BAD_DIRECTION, word), false;
    r->run.backwards = back;
    return true;
}

static bool take_field(reader *r, int field, part word) {
    traverse *t = &r->run;
    switch (field) {
    case FIELD_FROM: return t->has_from = true, take_station(r, word, &t->from, &t->from_unnamed);
    case FIELD_TO: return t->has_to = true, take_station(r, word, &t->to, &t->to_unnamed);
    case FIELD_STATION: return take_shared_station(r, word);
    case FIELD_DEPTH: return take_shared_reading(r, SURVEY_FROM_DEPTH, SURVEY_TO_DEPTH, word);
    case FIELD_COUNT: return take_shared_reading(r, SURVEY_FROM_COUNT, SURVEY_TO_COUNT, word);
    case FIELD_DIRECTION: return take_direction(r, word);
    case FIELD_IGNORE: return true;
    default: return take_reading(r, (enum survey_quantity)field, word, &t->readings[t->count++]);
    }
}

/* Where a line has too few or too many fields, or the rest of it is ignored, a decimal comma is what is wrong with it.
 */
static bool refuse_fields(reader *r, trouble_kind why, part word) {
    part comma = decimal_comma(r);
    complain(r, comma.length > 0 ? DECIMAL_COMMA : why, comma.length > 0 ? comma : word);
    return false;
}

/* The fields of a line from one place of the order to another. */
static bool take_fields(reader *r, size_t from, size_t to) {
    const order *o = now(r)->fields;
    part word;
    for (size_t j = from; j < to; j++) {
        if (o->fields[j] == FIELD_IGNORE_ALL)
            return decimal_comma(r).length == 0 || refuse_fields(r, MANY_FIELDS, NO_WORD);
        if (!next_word(r, &word)) return refuse_fields(r, FEW_FIELDS, NO_WORD);
        if (!take_field(r, o->fields[j], word)) return false;
    }
    return !next_word(r, &word) || refuse_fields(r, MANY_FIELDS, word);
}

/* ---- Lines */

static void start_leg(traverse *t) {
    t->count = 0;
    t->has_leg = t->bad_leg = t->backwards = false;
}

static void start_traverse(traverse *t) {
    start_leg(t);
    t->shared_count = 0;
    t->has_from = t->has_to = false;
}

void end_traverse(reader *r) {
    traverse *t = &r->run;
    bool lacks = t->has_leg && !t->bad_leg;
    start_traverse(t);
    if (lacks) complain_at(r, r->at.file, t->line, LACKS_STATION, NO_WORD);
}

/* Two stations that see each other. */
static void add_sight(reader *r) {
    struct survey *s = r->s;
    const traverse *t = &r->run;
    if (!t->has_from || t->from == SURVEY_NONE || t->to == SURVEY_NONE) return;
    remark(r, SIGHTS, NO_WORD);
    if (!room_for_one(r, &s->sights, s->sight_count, &r->sight_room, sizeof *s->sights)) return;
    s->sights[s->sight_count++] = (struct survey_sight){r->at.file, r->at.number, t->from, t->to};
}

/* The leg is whole: its readings and both its stations are there. */
static void finish_leg(reader *r) {
    traverse *t = &r->run;
    bool known = (t->from_unnamed || t->from != SURVEY_NONE) && (t->to_unnamed || t->to != SURVEY_NONE);
    if (t->bad_leg || !known) return;
    if (now(r)->fields->style == STYLE_NOSURVEY) add_sight(r);
    else add_leg(r);
}

/* Readings of the leg itself, where a new line stands before them. */
static void take_own_line(reader *r) {
    traverse *t = &r->run;
    const order *o = now(r)->fields;
    t->line = r->at.number;
    t->has_leg = true;
    t->bad_leg = !take_fields(r, o->newline + 1, o->count);
    if (o->shared) return;
    finish_leg(r);
    start_traverse(t);
}

/* A line of data: a leg, or a station that two legs share, or the readings of the leg between two of them. */
void take_data_line(reader *r) {
    traverse *t = &r->run;
    const order *o = now(r)->fields;
    if (o->style == STYLE_PASSAGE) {
        remark(r, PASSAGE_LINES, NO_WORD);
        return;
    }
    if (o->newline < o->count && t->has_to && !t->has_leg) {
        take_own_line(r);
        return;
    }
    if (!o->shared) start_traverse(t), t->line = r->at.number;
    bool taken = take_fields(r, 0, o->newline);
    if (!taken && o->shared) t->to = SURVEY_NONE, t->to_unnamed = false, t->has_to = true;
    if (!taken && !o->shared) t->bad_leg = true, t->has_to = true;
    if (o->newline < o->count && !o->shared) return;
    if (t->has_from && (!o->shared || t->has_leg || o->style == STYLE_NOSURVEY)) finish_leg(r);
    start_leg(t);
}
