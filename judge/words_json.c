/* The verdict for a program; docs/check.md has its members. */
#include "words.h"
#include <inttypes.h>
#include <stdlib.h>

/* The edges of each passage, and for each station the next one round a loop. */
struct judge_next {
    size_t *start, *count, *edges, *node;
};

static void add_place(const struct judge_cave *cave, const struct judge_edge *e, growing *to) {
    struct judge_place place = judge_place_of(cave, e);
    add(to, "\"file\": ");
    add_string(to, cave->survey->files[place.file].name);
    add(to, ", \"line\": %zu, \"from\": ", place.line);
    add_string(to, place.from);
    add(to, ", \"to\": ");
    add_string(to, place.to);
}

static void add_sigma(const struct judge_cave *cave, growing *to) {
    static const struct {
        const char *name;
        double scale;
    } NAMES[] = {{"tape_mm", 1000}, {"compass_degrees", 1}, {"clino_degrees", 1}, {"station_mm", 1000}};
    add(to, "  \"sigma\": {");
    for (int j = 0; j <= JUDGE_STATION; j++) {
        struct judge_range range = judge_range_of(cave, (enum judge_error)j);
        add(to, "%s\"%s\": {\"low\": %.9g, \"high\": %.9g, \"from\": ", j == 0 ? "" : ", ", NAMES[j].name,
            range.low * NAMES[j].scale, range.high * NAMES[j].scale);
        add_string(to, judge_source(cave, (enum judge_error)j));
        add(to, "}");
    }
    add(to, ", \"trip_degrees\": %.9g},\n", cave->sigmas.given[JUDGE_TRIP] ? cave->sigmas.of[JUDGE_TRIP] : 0);
}

static void add_estimate(const char *name, const struct judge_estimate *e, double scale, growing *to) {
    add(to, "  \"%s\": {\"value\": %.9g, \"low\": %.9g, \"high\": %.9g},\n", name, e->value * scale, e->low * scale,
        e->high * scale);
}

/* The stations of a loop in their order: from one edge of it to the next that has the same station, until it is closed.
 */
static void add_stations(const struct judge_cave *cave, const struct judge_loop *loop, struct judge_next *next,
                         growing *to) {
    size_t first = JUDGE_NONE;
    for (size_t j = 0; j < loop->passages; j++) {
        const struct judge_part *part = &cave->loop_passages[loop->at + j];
        for (size_t k = 0; k < next->count[part->of]; k++) {
            const struct judge_edge *e = &cave->edges[next->edges[next->start[part->of] + k]];
            bool along = part->sign * e->sign > 0;
            next->node[along ? e->from : e->to] = along ? e->to : e->from;
            if (first == JUDGE_NONE) first = along ? e->from : e->to;
        }
    }
    add(to, "\"stations\": [");
    for (size_t node = first, told = 0; told == 0 || node != first; node = next->node[node], told++) {
        add(to, "%s", told == 0 ? "" : ", ");
        add_string(to, node < cave->survey->station_count ? cave->survey->stations[node].name : "");
    }
    add(to, "], ");
}

static void add_loops(const struct judge_cave *cave, struct judge_next *next, growing *to) {
    add(to, "  \"loops\": [");
    for (size_t r = 0; r < cave->loop_count; r++) {
        const struct judge_loop *loop = &cave->loops[r];
        const struct judge_passage *p = &cave->passages[cave->loop_passages[loop->at].of];
        add(to,
            "%s\n    {\"legs\": %zu, \"length_m\": %.4f, \"east_mm\": %.3f, \"north_mm\": %.3f, \"q\": %.9g, \"p\": "
            "%.6g, \"sound\": %s, \"too_well\": %s, ",
            r == 0 ? "" : ",", loop->legs, loop->length, 1000 * loop->miss.east, 1000 * loop->miss.north, loop->reach,
            loop->p, loop->bad ? "false" : "true", loop->too_well ? "true" : "false");
        add_stations(cave, loop, next, to);
        add_place(cave, &cave->edges[p->first], to);
        add(to, "}");
    }
    add(to, cave->loop_count == 0 ? "],\n" : "\n  ],\n");
}

/* Room for the edges of each passage, and for the way round a loop. */
static bool make_next(const struct judge_cave *cave, struct judge_next *next) {
    size_t at = 0;
    next->start = malloc((cave->passage_count + 1) * sizeof *next->start);
    next->count = calloc(cave->passage_count + 1, sizeof *next->count);
    next->edges = malloc((cave->edge_count + 1) * sizeof *next->edges);
    next->node = calloc(cave->survey->station_count + 1, sizeof *next->node);
    if (next->start == NULL || next->count == NULL || next->edges == NULL || next->node == NULL) return false;
    for (size_t p = 0; p < cave->passage_count; at += cave->passages[p++].edges) next->start[p] = at;
    for (size_t e = 0; e < cave->edge_count; e++) {
        size_t p = cave->edges[e].passage;
        if (p != JUDGE_NONE) next->edges[next->start[p] + next->count[p]++] = e;
    }
    return true;
}

static void tell_loops(const struct judge_cave *cave, growing *to) {
    struct judge_next next = {0};
    if (make_next(cave, &next)) add_loops(cave, &next, to);
    else to->failed = true;
    free(next.start);
    free(next.count);
    free(next.edges);
    free(next.node);
}

static const char *kind_name(enum judge_blunder blunder) {
    static const char *const NAMES[] = {
        [JUDGE_DISTANCE] = "distance",
        [JUDGE_DECIMAL] = "decimal",
        [JUDGE_FEET] = "feet",
        [JUDGE_BEARING] = "bearing",
        [JUDGE_BACKWARDS] = "backwards",
        [JUDGE_EXCHANGED] = "exchanged",
        [JUDGE_MISREAD] = "misread",
        [JUDGE_ANY_DISTANCE] = "another distance",
        [JUDGE_ANY_BEARING] = "another bearing",
        [JUDGE_LEFT_OUT] = "left out",
        [JUDGE_EQUATED] = "equated",
        [JUDGE_FIXED] = "fixed",
    };
    return NAMES[blunder];
}

static void add_suspects(const struct judge_cave *cave, const struct judge_verdict *v, growing *to) {
    add(to, "  \"suspects\": [");
    for (size_t j = 0; j < v->suspect_count; j++) {
        const struct judge_suspect *s = &v->suspects[j];
        const struct judge_edge *e = &cave->edges[s->edge];
        add(to, "%s\n    {", j == 0 ? "" : ",");
        add_place(cave, e, to);
        add(to, ", \"kind\": \"%s\", \"blunder\": \"", kind_name(s->best.blunder));
        judge_blunder_words(&s->best, to);
        add(to, "\", \"correction\": %.9g, \"move_m\": [%.9g, %.9g], \"gain\": %.9g, ", s->best.correction,
            s->best.move.east, s->best.move.north, s->best.gain);
        add(to, "\"share\": %.9g, \"remains\": %.9g, \"others\": %zu, \"passage\": %zu}", s->share, s->remains,
            s->others, e->passage + 1);
    }
    add(to, v->suspect_count == 0 ? "],\n" : "\n  ],\n");
}

/* For each leg in a loop what would have shown. */
static void add_smallest(const struct judge_cave *cave, growing *to) {
    bool first = true;
    add(to, "  \"would_show\": [");
    for (size_t j = 0; j < cave->edge_count; j++) {
        const struct judge_edge *e = &cave->edges[j];
        struct judge_vector smallest = judge_smallest(cave, e);
        if (e->kind != JUDGE_LEG || !(smallest.east > 0)) continue;
        add(to, "%s\n    {", first ? "" : ",");
        add_place(cave, e, to);
        add(to, ", \"passage\": %zu, \"distance_m\": %.6g, \"bearing_degrees\": ", e->passage + 1, smallest.east);
        add(to, smallest.north > 0 ? "%.6g}" : "null}", smallest.north);
        first = false;
    }
    add(to, first ? "],\n" : "\n  ],\n");
}

/* The plays, each with its worst leg and worst loop: what --merge reads. */
static void add_plays(const struct judge_verdict *v, const struct judge_told *told, growing *to) {
    const uint32_t *n = told->seeds;
    add(to, "  \"seeds\": [%" PRIu32 ", %" PRIu32 ", %" PRIu32 ", %" PRIu32 ", %" PRIu32 ", %" PRIu32 "],\n", n[0],
        n[1], n[2], n[3], n[4], n[5]);
    add(to, "  \"first\": %" PRIu64 ",\n  \"plays\": %" PRIu64 ",\n  \"played\": [", v->first, v->plays);
    for (uint64_t j = 0; told->played != NULL && j < v->plays; j++)
        add(to, "%s[%.17g, %.17g]", j == 0 ? "\n" : ",\n", told->played[j].worst_passage, told->played[j].worst_loop);
    add(to, "\n  ]\n");
}

/* Of a cave without a loop nothing is known. */
static void add_verdict(const struct judge_cave *cave, const struct judge_verdict *v, growing *to) {
    if (cave->loop_count == 0) add(to, "  \"p\": null,\n  \"sound\": null,\n");
    else add(to, "  \"p\": %.9g,\n  \"sound\": %s,\n", v->p, v->sound ? "true" : "false");
    add(to, "  \"too_well\": %s,\n  \"beyond\": %" PRIu64 ",\n", v->too_well ? "true" : "false", v->beyond);
}

void judge_json(const struct judge_cave *cave, const struct judge_verdict *v, const struct judge_told *told,
                growing *to) {
    add(to, "{\n  \"jabulghi\": \"%s\",\n  \"file\": ", JABULGHI_VERSION);
    add_string(to, told->name);
    add(to, ",\n  \"legs\": %zu,\n  \"length_m\": %.3f,\n  \"legs_in_no_loop\": %zu,\n", cave->survey->leg_count,
        judge_length(cave), cave->legs_in_no_loop);
    add_verdict(cave, v, to);
    add(to, "  \"statistic\": %.17g,\n  \"misfit\": %.9g,\n  \"limit\": %.9g,\n  \"shows\": %.9g,\n", cave->statistic,
        cave->misfit, v->limit, v->shows);
    add(to, "  \"hold\": %.17g,\n", judge_hold(cave));
    add(to, "  \"passages\": %zu,\n  \"trips\": %zu,\n  \"pairs_per_play\": %zu,\n", cave->passage_count,
        cave->trip_count, cave->samples / 2);
    add_sigma(cave, to);
    add_estimate("factor", &v->factor, 1, to);
    add_estimate("station_mm", &v->station, 1000, to);
    add(to, cave->loop_count > 1 ? "  \"factor_without\": %.9g,\n" : "  \"factor_without\": null,\n",
        v->factor_without);
    tell_loops(cave, to);
    add_suspects(cave, v, to);
    add_smallest(cave, to);
    add_plays(v, told, to);
    add(to, "}\n");
}
