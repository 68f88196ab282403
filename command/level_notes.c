/* What `level` says: why no text is written, and what was done to legs that are. */
#include "level.h"

#include "../survey/mathematics.h"
#include <inttypes.h>
#include <stdlib.h>
#include <string.h>

static const char *const SENTENCES[] = {
    [NO_MEMORY] = "out of memory",
    [MANY_LEGS] = "more than 500 legs, and a job takes 500",
    [LONG_LEG] = "leg above 1000 m in plan, and a job takes 1000 m",
    [NO_SUCH_LOOP] = "no such loop",
    [NO_LOOP_AT_ALL] = "no leg closes a loop",
    [SEVERAL_LOOPS] = "several loops; choose one by --loop N",
};

bool refuse_level(levelling *l, reason why) {
    l->why = why;
    return false;
}

/* ---- What the reader says */

static void say(const struct survey *s, size_t file, size_t line, const char *words, growing *said) {
    add(said, "%s", s->files[file].name);
    if (line > 0) add(said, ":%zu", line);
    add(said, ": %s\n", words);
}

/* Notes of a survey that is taken; else its troubles. */
void say_messages(const struct survey *s, growing *said) {
    if (s->trouble_count == 0) {
        for (size_t j = 0; j < s->note_count; j++) say(s, s->notes[j].file, s->notes[j].line, s->notes[j].text, said);
        return;
    }
    for (size_t j = 0; j < s->told_count; j++)
        say(s, s->troubles[j].file, s->troubles[j].line, s->troubles[j].text, said);
    if (s->trouble_count > s->told_count) add(said, "and %zu more\n", s->trouble_count - s->told_count);
}

/* ---- Refusals */

static int64_t length_mm(const levelling *l, const walk *w) {
    double sum = 0;
    for (size_t j = 0; j < w->count; j++) {
        const struct survey_leg *leg = &l->s->legs[w->steps[j].leg];
        sum += hypot(leg->east, leg->north);
    }
    return (int64_t)(sum < 1e12 ? sum * 1000 + 0.5 : 1e15);
}

static void list_loop(levelling *l, uint64_t n, growing *said) {
    walk w;
    if (find_loop(l, n, &w)) {
        size_t last = 0;
        while (!l->closes[w.steps[last].leg]) last++;
        const struct survey_leg *closing = &l->s->legs[w.steps[last].leg];
        int64_t length = length_mm(l, &w);
        add(said, "  --loop %" PRIu64 ": %zu legs, %" PRId64 ".%03" PRId64 " m, ", n, w.count, length / 1000,
            length % 1000);
        add(said, "closed by %s:%zu, ", l->s->files[closing->file].name, closing->line);
        add(said, "%s to %s\n", l->s->stations[closing->from].name, l->s->stations[closing->to].name);
    }
    free(w.steps);
}

static void list_loops(levelling *l, growing *said) {
    size_t count = l->loop_count < MOST_LISTED ? l->loop_count : MOST_LISTED;
    for (size_t n = 1; n <= count; n++) list_loop(l, n, said);
    if (l->loop_count > count) add(said, "  and %zu more\n", l->loop_count - count);
}

/* "FILE:LINE: sentence", without a line where the whole survey is meant. */
void say_refusal(levelling *l, growing *said) {
    const struct survey_leg *bad = &l->s->legs[l->bad_leg];
    reason why = l->why;
    if (why == LONG_LEG) {
        say(l->s, bad->file, bad->line, SENTENCES[why], said);
        return;
    }
    add(said, "%s: %s", l->s->files[0].name, SENTENCES[why]);
    if (why == NO_SUCH_LOOP) add(said, ": it has %zu", l->loop_count);
    add(said, "\n");
    if (why == SEVERAL_LOOPS) list_loops(l, said);
}

/* ---- Notes */

bool is_steep(const struct survey_leg *leg) { return fabs(leg->slope) > 1e-9; }

void say_steep(const levelling *l, growing *said) {
    size_t steep = 0;
    for (size_t j = 0; j < l->walked.count; j++) steep += is_steep(&l->s->legs[l->walked.steps[j].leg]);
    if (steep > 0)
        add(said, "%s: legs that are not level, written with their plan length: %zu\n", l->s->files[0].name, steep);
}

static void say_backwards(const levelling *l, growing *said) {
    size_t backwards = 0;
    for (size_t j = 0; j < l->walked.count; j++) backwards += l->walked.steps[j].backwards;
    if (backwards > 0)
        add(said, "%s: legs walked backwards, turned by half a circle: %zu\n", l->s->files[0].name, backwards);
}

/* The first legs that are on no step, by file and line. */
static void say_left_out(const levelling *l, growing *said) {
    size_t count = 0, all = l->s->leg_count - l->walked.count;
    bool *on = calloc(l->s->leg_count, sizeof *on);
    said->failed = said->failed || on == NULL;
    for (size_t j = 0; on != NULL && j < l->walked.count; j++) on[l->walked.steps[j].leg] = true;
    if (on != NULL && all > 0) {
        add(said, "%s: legs not on the loop, left out: %zu (", l->s->files[0].name, all);
        for (size_t j = 0; j < l->s->leg_count && count < MOST_LISTED; j++) {
            if (!on[j])
                add(said, "%s%s:%zu", count++ > 0 ? ", " : "", l->s->files[l->s->legs[j].file].name,
                    l->s->legs[j].line);
        }
        add(said, "%s)\n", all > count ? " .." : "");
    }
    free(on);
}

/* Fixed points close loops that have no legs between them. */
static void say_fixes(const levelling *l, growing *said) {
    if (l->s->fix_count > 1) {
        add(said,
            "%s: %zu fixed points: loops between them have no legs, and are not written; jabulghi check judges them\n",
            l->s->files[0].name, l->s->fix_count);
    }
}

/* ---- The table of names */

/* A row for a station whose name is new, or that has several: all its names, as many as are listed. */
static void say_station(const levelling *l, const renamed *one, const size_t *next, growing *said) {
    growing row = {NULL, 0, 0, false};
    size_t count = 0, at = one->station;
    add(&row, "%s", l->s->stations[at].name);
    bool is_new = row.bytes != NULL && strcmp(row.bytes, one->new_name) != 0;
    for (at = next[at]; at != 0; at = next[at]) {
        if (++count < MOST_LISTED) add(&row, " = %s", l->s->stations[at].name);
    }
    if (row.failed) said->failed = true;
    else if (is_new || count > 0)
        add(said, "  %-12s %s%s\n", one->new_name, row.bytes, count >= MOST_LISTED ? " .." : "");
    free(row.bytes);
}

/* For each station the next name of the same one, 0 after the last. */
static size_t *list_names(const struct survey *s) {
    size_t *next = calloc(s->station_count, sizeof *next), *last = calloc(s->station_count, sizeof *last);
    for (size_t j = 0; next != NULL && last != NULL && j < s->station_count; j++) {
        size_t first = s->stations[j].same;
        if (first != j) next[last[first]] = j;
        last[first] = j;
    }
    if (last == NULL) free(next), next = NULL;
    free(last);
    return next;
}

void say_names(const levelling *l, growing *said) {
    growing rows = {NULL, 0, 0, false};
    size_t *next = list_names(l->s);
    for (size_t j = 0; next != NULL && j < l->station_count; j++) say_station(l, &l->stations[j], next, &rows);
    if (next == NULL || rows.failed) said->failed = true;
    else if (rows.length > 0) add(said, "%s: names:\n%s", l->s->files[0].name, rows.bytes);
    free(rows.bytes);
    free(next);
}

void say_notes(const levelling *l, growing *said) {
    add(said, "jabulghi: level is not proved: compare what it writes with your survey\n");
    say_steep(l, said);
    say_backwards(l, said);
    say_left_out(l, said);
    say_fixes(l, said);
    if (!l->walked.is_loop) add(said, "%s: no loop: all legs are written as they stand\n", l->s->files[0].name);
    say_names(l, said);
}
