/* The verdict for a person. */
#include "words.h"

#include "../survey/mathematics.h"
#include <inttypes.h>
#include <stdlib.h>
#include <string.h>

/* At most so many suspects and bad loops are printed. */
enum { MOST_SUSPECTS = 10, MOST_LOOPS = 5 };

/* Below this the share of sound loops is not told more exactly. */
#define LEAST_P 0.001

void judge_thousands(growing *to, uint64_t number) {
    if (number >= 1000) {
        judge_thousands(to, number / 1000);
        add(to, ",%03u", (unsigned)(number % 1000));
    } else {
        add(to, "%u", (unsigned)number);
    }
}

static void counted(growing *to, uint64_t number, const char *one, const char *many) {
    judge_thousands(to, number);
    add(to, " %s", number == 1 ? one : many);
}

/* A share: two digits of what is small. */
static void percent(growing *to, double share) { add(to, share < 0.0995 ? "%.2g %%" : "%.0f %%", 100 * share); }

double judge_bearing(struct judge_vector v) {
    double degrees = atan2(v.east, v.north) * (360 / TURN);
    return degrees < 0 ? degrees + 360 : degrees;
}

/* ---- What was read */

/* Widens a range by the standard deviations of a leg's readings that are numbers, or by that of its stations. */
static void widen(struct judge_range *range, const struct survey_leg *leg, enum judge_error error) {
    if (error == JUDGE_STATION) {
        range->low = fmin(range->low, leg->sd.position / sqrt(2));
        range->high = fmax(range->high, leg->sd.position / sqrt(2));
    }
    for (size_t j = 0; j < leg->reading_count; j++) {
        const struct survey_reading *r = &leg->readings[j];
        if (judge_error_of(r->what) != error || !judge_is_played(r)) continue;
        range->low = fmin(range->low, r->sd);
        range->high = fmax(range->high, r->sd);
    }
}

struct judge_range judge_range_of(const struct judge_cave *cave, enum judge_error error) {
    static const unsigned BITS[] = {1u << SURVEY_SD_TAPE, 1u << SURVEY_SD_COMPASS, 1u << SURVEY_SD_CLINO,
                                    1u << SURVEY_SD_POSITION};
    struct judge_range range = {INFINITY, 0, true, true};
    if (cave->sigmas.given[error])
        return (struct judge_range){cave->sigmas.of[error], cave->sigmas.of[error], false, false};
    for (size_t j = 0; j < cave->survey->leg_count; j++) {
        const struct survey_leg *leg = &cave->survey->legs[j];
        widen(&range, leg, error);
        if ((leg->sd.given & BITS[error]) == 0) range.by_sd = false;
        else range.by_default = false;
    }
    if (range.low > range.high) range.low = range.high;
    return range;
}

const char *judge_source(const struct judge_cave *cave, enum judge_error error) {
    struct judge_range range = judge_range_of(cave, error);
    if (cave->sigmas.given[error]) return cave->sigmas.from;
    return range.by_sd ? "*sd" : range.by_default ? "Survex's defaults" : "*sd in part, else Survex's defaults";
}

static void add_error(const struct judge_cave *cave, enum judge_error error, growing *to) {
    static const struct {
        const char *name, *unit;
        double scale;
    } NAMES[] = {{"tape", "mm", 1000}, {"compass", "degrees", 1}, {"clino", "degrees", 1}, {"stations", "mm", 1000}};
    struct judge_range range = judge_range_of(cave, error);
    double low = range.low * NAMES[error].scale, high = range.high * NAMES[error].scale;
    add(to, low < 1000 ? "%s %.3g" : "%s %.0f", NAMES[error].name, low);
    if (high > low * 1.0005) add(to, high < 1000 ? " to %.3g" : " to %.0f", high);
    add(to, " %s", NAMES[error].scale == 1 && fabs(high - 1) < 5e-4 ? "degree" : NAMES[error].unit);
}

/* Fixed points in loops that have no standard deviation of their own. */
static size_t count_points(const struct judge_cave *cave) {
    size_t count = 0;
    for (size_t j = 0; j < cave->edge_count; j++) {
        const struct judge_edge *e = &cave->edges[j];
        count += e->kind == JUDGE_FIX && e->passage != JUDGE_NONE && !(cave->survey->fixes[e->index].sd_east > 0);
    }
    return count;
}

static void tell_errors(const struct judge_cave *cave, growing *to) {
    bool alike = true;
    for (int j = 1; j <= JUDGE_STATION; j++)
        alike = alike && strcmp(judge_source(cave, (enum judge_error)j), judge_source(cave, JUDGE_TAPE)) == 0;
    add(to, "errors: ");
    for (int j = 0; j <= JUDGE_STATION; j++) {
        add(to, "%s", j == 0 ? "" : ", ");
        add_error(cave, (enum judge_error)j, to);
        if (!alike) add(to, " (%s)", judge_source(cave, (enum judge_error)j));
    }
    if (count_points(cave) > 0)
        add(to, ", fixed points %g m",
            cave->sigmas.given[JUDGE_POINT] ? cave->sigmas.of[JUDGE_POINT] : JUDGE_POINT_ERROR);
    if (cave->sigmas.given[JUDGE_TRIP]) add(to, ", a trip's compass %.3g degrees", cave->sigmas.of[JUDGE_TRIP]);
    if (alike)
        add(to, " (from %s%s)", judge_source(cave, JUDGE_TAPE),
            strcmp(judge_source(cave, JUDGE_TAPE), "--sigma") == 0 ? "" : "; --sigma replaces them");
    add(to, "\n");
}

double judge_length(const struct judge_cave *cave) {
    double sum = 0;
    for (size_t j = 0; j < cave->survey->leg_count; j++) sum += cave->survey->legs[j].length;
    return sum;
}

static void tell_cave(const struct judge_cave *cave, const char *name, growing *to) {
    double length = judge_length(cave);
    add(to, "%s: ", name);
    counted(to, cave->survey->leg_count, "leg", "legs");
    add(to, length < 1000 ? ", %.1f m, " : ", %.2f km, ", length < 1000 ? length : length / 1000);
    counted(to, cave->loop_count, "loop", "loops");
    add(to, "\n");
    if (cave->survey->leg_count > 0) tell_errors(cave, to);
}

/* ---- The whole cave */

static void tell_verdict(const struct judge_verdict *v, growing *to) {
    add(to, "The cave as a whole: in ");
    if (v->beyond == 0) add(to, "none");
    else judge_thousands(to, v->beyond);
    add(to, " of ");
    judge_thousands(to, v->plays);
    add(to, " sound caves like this %s as here.\n",
        v->beyond == 0 ? "does the worst leg look as bad" : "the worst leg looks as bad");
    add(to, v->sound ? "That is no sign of a blunder.\n"
                     : "That is below 5 %%: there is a blunder, or these errors are too small.\n");
    if (v->too_well)
        add(to,
            "It closes better than all but 1 in 1,000 sound caves: these errors are too large, or the readings were "
            "made to fit.\n");
}

/* ---- Suspects */

static void tell_place(const struct judge_cave *cave, const struct judge_edge *e, growing *to) {
    const struct survey *s = cave->survey;
    struct judge_place place = judge_place_of(cave, e);
    add(to, "  %s:%zu  ", s->files[place.file].name, place.line);
    if (e->kind == JUDGE_FIX) add(to, "*fix %s", place.to);
    else add(to, "%s%s - %s", e->kind == JUDGE_EQUATE ? "*equate " : "", place.from, place.to);
}

struct judge_place judge_place_of(const struct judge_cave *cave, const struct judge_edge *e) {
    const struct survey *s = cave->survey;
    struct judge_place place = {0, 0, e->from < s->station_count ? s->stations[e->from].name : "",
                                s->stations[e->to].name};
    switch (e->kind) {
    case JUDGE_LEG: place.file = s->legs[e->index].file, place.line = s->legs[e->index].line; break;
    case JUDGE_EQUATE: place.file = s->equates[e->index].file, place.line = s->equates[e->index].line; break;
    case JUDGE_FIX: place.file = s->fixes[e->index].file, place.line = s->fixes[e->index].line; break;
    }
    return place;
}

/* The reading of a leg that a sentence quotes, as written, or NULL. */
static const char *written(const struct survey_leg *leg, enum survey_quantity what) {
    const struct survey_reading *r = survey_reading_of(leg, what);
    return r == NULL || r->form == SURVEY_OMITTED ? NULL : r->text;
}

static void tell_readings(const struct survey_leg *leg, growing *to) {
    const char *tape = written(leg, SURVEY_TAPE), *compass = written(leg, SURVEY_COMPASS),
               *clino = written(leg, SURVEY_CLINO);
    if (tape != NULL) add(to, ", %s", tape);
    if (compass != NULL) add(to, " at %s", compass);
    if (clino != NULL) add(to, ", clino %s", clino);
}

void judge_blunder_words(const struct judge_explanation *e, growing *to) {
    double by = e->correction, far = hypot(e->move.east, e->move.north);
    switch (e->blunder) {
    case JUDGE_DISTANCE: add(to, "%g m too %s", fabs(by), by < 0 ? "long" : "short"); break;
    case JUDGE_DECIMAL: add(to, "the tape's point one place too far to the %s", by > 1 ? "left" : "right"); break;
    case JUDGE_FEET: add(to, "%s", by < 1 ? "feet taken for metres" : "metres taken for feet"); break;
    case JUDGE_BEARING: add(to, "the bearing %g degrees too %s", fabs(by), by < 0 ? "large" : "small"); break;
    case JUDGE_BACKWARDS: add(to, "read backwards, or the bearing 180 degrees off"); break;
    case JUDGE_EXCHANGED: add(to, "%s for %s (digits exchanged)", e->should_be, e->reading->text); break;
    case JUDGE_MISREAD: add(to, "%s for %s (a digit misread)", e->should_be, e->reading->text); break;
    case JUDGE_ANY_DISTANCE: add(to, "%.2f m too %s", fabs(by), by < 0 ? "long" : "short"); break;
    case JUDGE_ANY_BEARING: add(to, "the bearing %.1f degrees too %s", fabs(by), by < 0 ? "large" : "small"); break;
    case JUDGE_LEFT_OUT: add(to, "a leg left out, %.2f m at %.0f", far, judge_bearing(e->move)); break;
    case JUDGE_EQUATED: add(to, "equated wrongly (%.2f m at %.0f from each other)", far, judge_bearing(e->move)); break;
    case JUDGE_FIXED: add(to, "fixed wrongly by %.2f m at %.0f", far, judge_bearing(e->move)); break;
    }
}

/* The letter of a suspect's passage among those that are printed, or 0 where it is a passage of one edge. */
static char letter_of(const struct judge_cave *cave, const struct judge_verdict *v, size_t suspect) {
    char letter = 'A';
    size_t passage = cave->edges[v->suspects[suspect].edge].passage;
    if (cave->passages[passage].edges < 2) return 0;
    for (size_t j = 0; j < suspect; j++) {
        size_t earlier = cave->edges[v->suspects[j].edge].passage;
        if (earlier == passage) return letter_of(cave, v, j);
        bool is_new = cave->passages[earlier].edges >= 2;
        for (size_t k = 0; k < j; k++) is_new = is_new && cave->edges[v->suspects[k].edge].passage != earlier;
        letter = (char)(letter + is_new);
    }
    return letter;
}

static void tell_suspect(const struct judge_cave *cave, const struct judge_verdict *v, size_t number, growing *to) {
    const struct judge_suspect *s = &v->suspects[number];
    const struct judge_edge *e = &cave->edges[s->edge];
    char letter = letter_of(cave, v, number);
    tell_place(cave, e, to);
    if (s->best.blunder == JUDGE_LEFT_OUT) add(to, " or near it");
    else if (e->kind == JUDGE_LEG) tell_readings(&cave->survey->legs[e->index], to);
    add(to, ": ");
    judge_blunder_words(&s->best, to);
    add(to, s->remains < JUDGE_LIMIT ? " would explain part of it.\n      " : " would explain it.\n      ");
    if (s->share < 0.995) percent(to, s->share);
    else add(to, "Over 99 %%");
    add(to, " sure. Corrected, ");
    percent(to, s->remains);
    add(to, " of sound caves look as bad.");
    if (letter != 0) add(to, " [%c]", letter);
    add(to, "\n");
}

/* The passages of the suspects that are printed. */
static void tell_passages(const struct judge_cave *cave, const struct judge_verdict *v, size_t printed, growing *to) {
    char told = 'A';
    for (size_t j = 0; j < printed; j++) {
        size_t passage = cave->edges[v->suspects[j].edge].passage, last = cave->passages[passage].first;
        if (letter_of(cave, v, j) != told) continue;
        for (size_t e = last; e < cave->edge_count; e++)
            last = cave->edges[e].passage == passage && cave->edges[e].kind == JUDGE_LEG ? e : last;
        struct judge_place from = judge_place_of(cave, &cave->edges[cave->passages[passage].first]),
                           till = judge_place_of(cave, &cave->edges[last]);
        add(to, "[%c]: one passage of ", told++);
        counted(to, cave->passages[passage].legs, "leg", "legs");
        add(to, ", %s:%zu to %s:%zu.\n", cave->survey->files[from.file].name, from.line,
            cave->survey->files[till.file].name, till.line);
    }
    if (told > 'A') add(to, "No loop can tell the legs of one passage apart, only the size of the blunder can.\n");
}

static void tell_suspects(const struct judge_cave *cave, const struct judge_verdict *v, growing *to) {
    size_t printed = 0;
    add(to, "Look at these legs first:\n");
    while (printed < v->suspect_count && printed < MOST_SUSPECTS &&
           (printed == 0 || v->suspects[printed].share >= JUDGE_LEAST_SHARE))
        tell_suspect(cave, v, printed++, to);
    tell_passages(cave, v, printed, to);
    const struct judge_suspect *first = &v->suspects[0];
    if (first->remains < JUDGE_LIMIT) {
        add(to,
            "Corrected, the first does not make the cave sound: there are several blunders, or these errors are too "
            "small. Correct what is surely wrong, and check again.\n");
    } else if (first->others == 0) {
        add(to, "No other correction would make the cave sound.\n");
    } else {
        counted(to, first->others, "other correction", "other corrections");
        add(to, " would make the cave sound, too.\n");
    }
}

/* ---- Loops */

static void tell_loop(const struct judge_cave *cave, size_t number, growing *to) {
    const struct judge_loop *loop = &cave->loops[number];
    double far = hypot(loop->miss.east, loop->miss.north);
    struct judge_place place =
        judge_place_of(cave, &cave->edges[cave->passages[cave->loop_passages[loop->at].of].first]);
    add(to, "%5zu %5zu %9.1f %8.2f %7.2f %8.2f %8.2f ", number + 1, loop->legs, loop->length, far,
        loop->length > 0 ? 100 * far / loop->length : 0, loop->miss.east, loop->miss.north);
    add(to, loop->p < LEAST_P ? "  <%.3f" : "%8.2g", loop->p < LEAST_P ? LEAST_P : loop->p);
    add(to, "  %-8s  %s:%zu\n",
        loop->bad        ? "bad"
        : loop->too_well ? "too well"
                         : "",
        cave->survey->files[place.file].name, place.line);
}

/* The bad loop that is worst of those that miss by less than `below`; JUDGE_NONE where there is none. */
static size_t worst_loop(const struct judge_cave *cave, double below) {
    size_t worst = JUDGE_NONE;
    for (size_t r = 0; r < cave->loop_count; r++) {
        const struct judge_loop *loop = &cave->loops[r];
        if (loop->bad && loop->reach < below && (worst == JUDGE_NONE || loop->reach > cave->loops[worst].reach))
            worst = r;
    }
    return worst;
}

/* All loops, or the worst of those that are bad. */
static void list_loops(const struct judge_cave *cave, const struct judge_verdict *v, bool all, growing *to) {
    size_t told = 0;
    add(to,
        " loop  legs    length   misses     %%     east    north        p  (m; p: sound loops that miss by as much)\n");
    for (size_t r = 0; all && r < cave->loop_count; r++) tell_loop(cave, r, to);
    if (all) return;
    for (size_t r = worst_loop(cave, INFINITY); r != JUDGE_NONE && told < MOST_LOOPS; told++) {
        tell_loop(cave, r, to);
        r = worst_loop(cave, cave->loops[r].reach);
    }
    if (v->bad_loops > told) add(to, "and %zu more. ", v->bad_loops - told);
    if (cave->loop_count > 1) add(to, "--loops lists them all.\n");
}

static void tell_loops(const struct judge_cave *cave, const struct judge_verdict *v, bool all, growing *to) {
    if (cave->loop_count == 1) {
        add(to, "The loop is %s", v->bad_loops == 0 ? "sound" : "not sound");
    } else {
        add(to, "Loops: ");
        judge_thousands(to, cave->loop_count - v->bad_loops);
        add(to, " of ");
        judge_thousands(to, cave->loop_count);
        add(to, " are sound");
    }
    add(to, !all && v->bad_loops == 0 ? ".\n" : ":\n");
    if (all || v->bad_loops > 0) list_loops(cave, v, all, to);
}

static void tell_too_well(const struct judge_cave *cave, growing *to) {
    for (size_t r = 0; cave->loop_count > 1 && r < cave->loop_count; r++) {
        if (cave->loops[r].too_well)
            add(to,
                "Loop %zu closes better than all but 1 in 1,000 sound loops: by chance, or its readings were made to "
                "fit.\n",
                r + 1);
    }
}

/* ---- Errors, and what could not be seen */

static void tell_sigmas(const struct judge_cave *cave, const struct judge_verdict *v, growing *to) {
    const struct judge_estimate *f = &v->factor, *s = &v->station;
    struct judge_range given = judge_range_of(cave, JUDGE_STATION);
    bool agrees = f->low <= 1 && f->high >= 1;
    add(to, "%s fit%s ", cave->loop_count == 1 ? "Your loop" : "Your loops", cave->loop_count == 1 ? "s" : "");
    if (agrees) add(to, "these errors; best would be ");
    if (agrees || s->value > 0)
        add(to, "%.0f mm a station (%.0f to %.0f)", 1000 * s->value, 1000 * s->low, 1000 * s->high);
    if (!agrees && s->value > 0) add(to, ", not %.0f", 1000 * given.high);
    add(to, "%s times %.2f (%.2f to %.2f).",
        agrees || s->value > 0 ? ", or all errors" : "smaller errors than these: all of them", f->value, f->low,
        f->high);
    if (!v->sound && v->factor_without > 0) add(to, " Without the worst leg: times %.2f.", v->factor_without);
    add(to, "\n");
}

static int rising(const void *a, const void *b) {
    return (*(const double *)a > *(const double *)b) - (*(const double *)a < *(const double *)b);
}

/* A distance, and a bearing where one would show at all. */
static void add_size(double metres, double degrees, growing *to) {
    add(to, metres < 9.95 ? "%.1f m" : "%.0f m", metres);
    if (degrees < INFINITY) add(to, degrees < 9.95 ? " or %.1f degrees" : " or %.0f degrees", degrees);
}

/* Half of the legs, and nine of ten, show blunders from these sizes on. */
static void tell_sizes(const struct judge_cave *cave, growing *to) {
    size_t count = 0;
    double *metres = malloc(cave->edge_count * sizeof *metres), *degrees = malloc(cave->edge_count * sizeof *degrees);
    to->failed = to->failed || metres == NULL || degrees == NULL;
    if (!to->failed) {
        for (size_t j = 0; j < cave->edge_count; j++) {
            const struct judge_edge *e = &cave->edges[j];
            struct judge_vector smallest = judge_smallest(cave, e);
            if (e->kind != JUDGE_LEG || !(smallest.east > 0)) continue;
            metres[count] = smallest.east;
            degrees[count++] = smallest.north > 0 ? smallest.north : INFINITY;
        }
        qsort(metres, count, sizeof metres[0], rising);
        qsort(degrees, count, sizeof degrees[0], rising);
    }
    if (count > 0) {
        add(to, "A blunder of ");
        add_size(metres[count / 2], degrees[count / 2], to);
        add(to, " would show (4 times in 5) in half of the legs in loops, one of ");
        add_size(metres[count * 9 / 10], degrees[count * 9 / 10], to);
        add(to, " in nine of ten.\n");
    }
    free(metres);
    free(degrees);
}

static void tell_unseen(const struct judge_cave *cave, growing *to) {
    if (cave->legs_in_no_loop == 0) return;
    judge_thousands(to, cave->legs_in_no_loop);
    add(to, " of ");
    counted(to, cave->survey->leg_count, "leg", "legs");
    add(to, cave->legs_in_no_loop == 1 ? " is in no loop: nothing is known of it.\n"
                                       : " are in no loop: nothing is known of them.\n");
}

void judge_words(const struct judge_cave *cave, const struct judge_verdict *v, const struct judge_told *told,
                 growing *to) {
    const uint32_t *n = told->seeds;
    tell_cave(cave, told->name, to);
    if (cave->loop_count == 0) {
        add(to, "No loop: nothing can be checked.\n");
        return;
    }
    tell_verdict(v, to);
    if (!v->sound) tell_suspects(cave, v, to);
    tell_loops(cave, v, told->all_loops, to);
    tell_too_well(cave, to);
    tell_sigmas(cave, v, to);
    tell_unseen(cave, to);
    tell_sizes(cave, to);
    add(to, "Plan only: heights are not judged. The noise is proved, the check is not.\n");
    add(to,
        "(seeds (a %" PRIu32 " %" PRIu32 " %" PRIu32 ") (b %" PRIu32 " %" PRIu32 " %" PRIu32 ")), plays %" PRIu64
        " to %" PRIu64 "\n",
        n[0], n[1], n[2], n[3], n[4], n[5], v->first, v->first + v->plays - 1);
}
