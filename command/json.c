/* The figures for a program; and the parts of many runs, which --merge adds up (merge.c reads this layout and no
 * other). */
#include "tolerance.h"
#include <inttypes.h>

/* The job that every run plays, a line a string. */
static void add_job(const task *t, growing *to) {
    add(to, "  \"job\": [\n    \"");
    for (size_t at = 0; at + 1 < t->length; at++) {
        if (t->job[at] == '\n') add(to, "\",\n    \"");
        else add(to, "%c", t->job[at]);
    }
    add(to, "\"\n  ],\n");
}

/* How many runs lie in each step: [end of the step, runs], .. */
static void add_steps(const char *name, const histogram *h, const char *after, growing *to) {
    add(to, "  \"%s\": [", name);
    for (size_t j = 0; j < h->size; j++)
        add(to, "%s[%" PRIu64 ", %" PRIu64 "]", j == 0 ? "" : ", ", h->bars[j].at, h->bars[j].count);
    add(to, "]%s\n", after);
}

/* What can be added up. */
static void add_part(const task *t, const tally *kept, growing *to) {
    add_job(t, to);
    add(to, "  \"first\": %" PRIu64 ",\n  \"runs\": %" PRIu64 ",\n", kept->first, kept->runs);
    add(to, "  \"miss\": [%.17g, %.17g],\n", t->miss.east, t->miss.north);
    if (t->more.east + t->more.north > 0)
        add(to, "  \"more\": [%.17g, %.17g, %.17g, %.17g, %.17g],\n", t->s.station, t->s.clino, t->more.east,
            t->more.north, t->more.both);
    add(to, "  \"beyond\": %" PRIu64 ",\n  \"farther\": %" PRIu64 ",\n", kept->beyond, kept->farther);
    add(to, "  \"sums\": [%.17g, %.17g, %.17g, %.17g, %.17g],\n", kept->sum.east, kept->sum.north, kept->squares.east,
        kept->squares.north, kept->product);
    add(to, "  \"width\": %" PRIu64 ",\n", kept->width);
    add_steps("steps_east", &kept->of[EAST], ",", to);
    add_steps("steps_north", &kept->of[NORTH], ",", to);
    add_steps("steps_distance", &kept->of[DISTANCE], "", to);
}

static void add_figures(const task *t, const tally *kept, growing *to) {
    closed_form closed = closed_form_of(t);
    add(to, "  \"miss_without_noise\": [%" PRId64 ", %" PRId64 "],\n", t->own[0], t->own[1]);
    add(to, "  \"rms\": [%.3f, %.3f, %.3f],\n", rms_of(kept, EAST), rms_of(kept, NORTH), rms_of(kept, DISTANCE));
    add(to, "  \"closed_rms\": [%.3f, %.3f, %.3f],\n", closed.rms[EAST], closed.rms[NORTH], closed.rms[DISTANCE]);
    for (int row = 0; row < QUANTILES; row++) {
        add(to, "  \"within_%g\": [%" PRIu64 ", %" PRIu64 ", %" PRIu64 "],\n", THOUSANDTHS[row] / 10.0,
            within_of(kept, EAST, THOUSANDTHS[row]), within_of(kept, NORTH, THOUSANDTHS[row]),
            within_of(kept, DISTANCE, THOUSANDTHS[row]));
        add(to, "  \"closed_within_%g\": [%.3f, %.3f, %.3f],\n", THOUSANDTHS[row] / 10.0, closed.within[EAST][row],
            closed.within[NORTH][row], closed.within[DISTANCE][row]);
    }
    add(to, "  \"share_beyond\": %.9g,\n  \"share_farther\": %.9g,\n", (double)kept->beyond / (double)kept->runs,
        (double)kept->farther / (double)kept->runs);
}

/* The survey's own names of a leg; of a survey its file and line, too. */
static void add_origin(const task *t, size_t leg, growing *to) {
    origin o = origin_of(&t->s, &t->shots, leg);
    add(to, "\"from\": ");
    add_string(to, o.from);
    add(to, ", \"to\": ");
    add_string(to, o.to);
    if (t->s.about == SURVEY) {
        add(to, ", \"file\": ");
        add_string(to, o.file);
        add(to, ", \"line\": %zu", o.line);
    }
    add(to, "}");
}

static void add_candidates(const task *t, const tally *kept, growing *to) {
    static candidate found[2 * MOST_SHOTS];
    ellipse e = ellipse_of_runs(kept);
    size_t count = is_below(kept, DOUBTFUL) ? candidates_of(t, &e, found) : 0;
    add(to, "  \"candidates\": [");
    for (size_t j = 0; j < count; j++) {
        add(to, "%s\n    {\"leg\": %zu, \"%s\": %.3f, \"remains\": %.4f, ", j == 0 ? "" : ",", found[j].leg + 1,
            found[j].bearing ? "bearing_degrees" : "distance_mm", found[j].correction, found[j].remains);
        add_origin(t, found[j].leg, to);
    }
    add(to, count == 0 ? "],\n" : "\n  ],\n");
}

void report_json(const task *t, const tally *kept, growing *to) {
    add(to, "{\n  \"jabulghi\": \"%s\",\n  \"file\": ", JABULGHI_VERSION);
    add_string(to, t->s.source.name);
    add(to, ",\n  \"legs\": %zu,\n", t->shots.count);
    add_figures(t, kept, to);
    add_candidates(t, kept, to);
    add_part(t, kept, to);
    add(to, "}\n");
}
