/* The legs of a survey's loop as the strict text that `jabulghi legs` takes, whole or not at all. */
#include "level.h"

#include "../survey/mathematics.h"
#include <errno.h>
#include <inttypes.h>
#include <stdlib.h>
#include <string.h>

/* To the nearest of so many parts, halves up: what is less than a ten-millionth below a half is one, as a decimal is.
 */
static int64_t nearest(double value, double parts) { return (int64_t)floor(value * parts + 0.5 + 1e-7); }

int64_t plan_mm(const struct survey_leg *l) { return nearest(hypot(l->east, l->north), 1000); }

/* Degrees; a negative tape, or a clino beyond plumb, points the other way than the compass. */
static double bearing_of(const struct survey_leg *l, bool backwards) {
    double turn = l->bearing * (3.14159265358979323846 / 180);
    bool turned = l->east * sin(turn) + l->north * cos(turn) < -1e-6;
    return l->bearing + (turned != backwards ? 180 : 0);
}

int64_t bearing_steps(const struct survey_leg *l, bool backwards) {
    return nearest(bearing_of(l, backwards), 65536 / 360.0) % 65536;
}

/* The reading as it stands in the book, where the leg is one shot and has it. */
static void put_reading(const struct survey_leg *l, const char *label, enum survey_quantity what, growing *strict) {
    const struct survey_reading *one = l->shots == 1 ? survey_reading_of(l, what) : NULL;
    if (one != NULL) add(strict, ", %s %s", label, one->text);
}

void put_name(const char *name, growing *strict) {
    for (; *name != '\0'; name++) add(strict, "%s", (char[2]){(unsigned char)*name < 32 ? '?' : *name, '\0'});
}

static void put_leg(const levelling *l, step at, growing *strict) {
    const struct survey_leg *leg = &l->s->legs[at.leg];
    size_t from = l->s->stations[at.backwards ? leg->to : leg->from].same;
    size_t to = l->s->stations[at.backwards ? leg->from : leg->to].same;
    int64_t plan = plan_mm(leg), compass = nearest(bearing_of(leg, at.backwards), 100) % 36000;
    add(strict, "%s %s %" PRId64 ".%03" PRId64, l->stations[l->place[from] - 1].new_name,
        l->stations[l->place[to] - 1].new_name, plan / 1000, plan % 1000);
    add(strict, " %" PRId64 ".%02" PRId64 " 0 ; ", compass / 100, compass % 100);
    put_name(l->s->files[leg->file].name, strict);
    add(strict, ":%zu%s", leg->line, at.backwards ? ", turned" : "");
    if (is_steep(leg)) {
        put_reading(leg, "tape", SURVEY_TAPE, strict);
        put_reading(leg, "clino", SURVEY_CLINO, strict);
    }
    add(strict, "\n");
}

void put_legs(const levelling *l, growing *strict) {
    add(strict, "; made by jabulghi level, which is not proved\n*data normal from to tape compass clino\n");
    for (size_t j = 0; j < l->walked.count; j++) put_leg(l, l->walked.steps[j], strict);
}

void put_shots(const levelling *l, growing *shots) {
    for (size_t j = 0; j < l->walked.count; j++) {
        step at = l->walked.steps[j];
        const struct survey_leg *leg = &l->s->legs[at.leg];
        size_t from = l->s->stations[at.backwards ? leg->to : leg->from].same;
        size_t to = l->s->stations[at.backwards ? leg->from : leg->to].same;
        add(shots, "(shot %s %s %" PRId64 " %" PRId64 ")\n", l->stations[l->place[from] - 1].new_name,
            l->stations[l->place[to] - 1].new_name, plan_mm(leg), bearing_steps(leg, at.backwards));
    }
}

/* A leg of the walk is 1 km at most, as a job's is. */
static bool are_short(levelling *l) {
    for (size_t j = 0; j < l->walked.count; j++) {
        l->bad_leg = l->walked.steps[j].leg;
        if (!(hypot(l->s->legs[l->bad_leg].east, l->s->legs[l->bad_leg].north) < 1000.0004))
            return refuse_level(l, LONG_LEG);
    }
    return true;
}

bool level_survey(const struct survey *s, uint64_t loop, bool needed, levelling *made) {
    memset(made, 0, sizeof *made);
    made->s = s;
    if (!find_walk(made, loop)) return false;
    if (needed && !made->walked.is_loop) return refuse_level(made, NO_LOOP_AT_ALL);
    return are_short(made) && name_walk(made);
}

bool level_whole(const struct survey *s, levelling *made) {
    memset(made, 0, sizeof *made);
    made->s = s;
    made->by_case = true;
    return walk_all(made) && are_short(made) && name_walk(made);
}

void free_levelling(levelling *l) { free(l->closes), free(l->walked.steps), free(l->stations), free(l->place); }

/* A survey that is taken, its loop found and written. */
static bool write_loop(const struct survey *s, uint64_t loop, bool needed, growing *strict, growing *said) {
    levelling l;
    bool done = level_survey(s, loop, needed, &l);
    if (done) {
        say_messages(s, said);
        say_notes(&l, said);
        put_legs(&l, strict);
    } else if (l.why == NO_MEMORY) {
        strict->failed = true;
    } else {
        say_refusal(&l, said);
    }
    free_levelling(&l);
    return done;
}

int level_text(const text *from, survey_fetch *fetch, uint64_t loop, bool needed, growing *strict, growing *said) {
    struct survey *s = survey_read(from->name, from->bytes, from->length, fetch, NULL);
    if (s == NULL) return trouble(from->name, strerror(ENOMEM));
    bool taken = s->trouble_count == 0, done = taken && write_loop(s, loop, needed, strict, said);
    if (!taken) say_messages(s, said);
    survey_free(s);
    return strict->failed || said->failed ? trouble(from->name, strerror(ENOMEM)) : done ? DONE : REFUSED;
}
