/* A picture: the plan of the cave with its loops, the suspects in red. Drawn in units of which 1200 are the width. */
#include "words.h"

#include "../survey/mathematics.h"
#include <stdlib.h>
#include <string.h>

/* Suspects that are marked, and the margin. */
enum { MOST_MARKED = 5, WIDTH = 1200, MARGIN = 60 };

/* Where stations stand, and the frame of the legs. */
struct places {
    struct judge_vector *at, low, high;
    double scale;
};

/* Goes along legs, equates and fixed points from what is known, edge after edge, until no more becomes known. */
static void spread_out(const struct judge_cave *cave, struct judge_vector *at, bool *known) {
    for (bool more = true; more;) {
        more = false;
        for (size_t pass = 0; pass < 2 * cave->edge_count; pass++) {
            const struct judge_edge *e = &cave->edges[pass < cave->edge_count ? pass : 2 * cave->edge_count - 1 - pass];
            if (known[e->from] == known[e->to]) continue;
            double sign = known[e->from] ? 1 : -1;
            struct judge_vector from = at[sign > 0 ? e->from : e->to];
            at[sign > 0 ? e->to : e->from] =
                (struct judge_vector){from.east + sign * e->vector.east, from.north + sign * e->vector.north};
            known[e->from] = known[e->to] = more = true;
        }
    }
}

bool judge_places(const struct judge_cave *cave, struct judge_vector *at) {
    size_t origin = cave->survey->station_count;
    bool *known = calloc(origin + 1, sizeof *known);
    if (known == NULL) return false;
    memset(at, 0, (origin + 1) * sizeof at[0]);
    known[origin] = true;
    spread_out(cave, at, known);
    for (size_t j = 0; j < cave->edge_count; j++) {
        if (known[cave->edges[j].from]) continue;
        known[cave->edges[j].from] = true;
        spread_out(cave, at, known);
    }
    free(known);
    return true;
}

/* The frame of all legs. */
static void fit(const struct judge_cave *cave, struct places *p) {
    p->low = (struct judge_vector){INFINITY, INFINITY};
    p->high = (struct judge_vector){-INFINITY, -INFINITY};
    for (size_t j = 0; j < 2 * cave->edge_count; j++) {
        const struct judge_edge *e = &cave->edges[j / 2];
        struct judge_vector at = p->at[j % 2 == 0 ? e->from : e->to];
        if (e->kind != JUDGE_LEG) continue;
        p->low = (struct judge_vector){fmin(p->low.east, at.east), fmin(p->low.north, at.north)};
        p->high = (struct judge_vector){fmax(p->high.east, at.east), fmax(p->high.north, at.north)};
    }
    p->scale = (WIDTH - 2 * MARGIN) / fmax(fmax(p->high.east - p->low.east, p->high.north - p->low.north), 1);
}

static double across(const struct places *p, struct judge_vector v) {
    return MARGIN + (v.east - p->low.east) * p->scale;
}
static double down(const struct places *p, struct judge_vector v) {
    return MARGIN + (p->high.north - v.north) * p->scale;
}

static void draw_leg(const struct places *p, const struct judge_edge *e, const char *style, growing *to) {
    add(to, "<line x1=\"%.1f\" y1=\"%.1f\" x2=\"%.1f\" y2=\"%.1f\" %s/>\n", across(p, p->at[e->from]),
        down(p, p->at[e->from]), across(p, p->at[e->to]), down(p, p->at[e->to]), style);
}

/* Whether an edge lies in a loop that is bad. */
static bool is_bad(const struct judge_cave *cave, const struct judge_edge *e) {
    const struct judge_passage *p = &cave->passages[e->passage];
    for (size_t k = 0; k < p->loops; k++) {
        if (cave->loops[cave->passage_loops[p->at + k].of].bad) return true;
    }
    return false;
}

static void draw_legs(const struct judge_cave *cave, const struct places *p, growing *to) {
    for (size_t j = 0; j < cave->edge_count; j++) {
        const struct judge_edge *e = &cave->edges[j];
        if (e->kind != JUDGE_LEG) continue;
        bool loop = e->passage != JUDGE_NONE;
        draw_leg(p, e,
                 !loop             ? "stroke=\"#999999\""
                 : is_bad(cave, e) ? "stroke=\"#d08020\" stroke-width=\"3\""
                                   : "stroke=\"#33557a\" stroke-width=\"3\"",
                 to);
    }
}

/* A name in which nothing is taken for a mark of the picture. */
static void add_name(growing *to, const char *name) {
    for (; *name != '\0'; name++) add(to, *name == '<' ? "&lt;" : *name == '&' ? "&amp;" : "%c", *name);
}

static void draw_suspects(const struct judge_cave *cave, const struct judge_verdict *v, const struct places *p,
                          growing *to) {
    for (size_t j = 0; j < v->suspect_count && j < MOST_MARKED; j++) {
        if (j > 0 && v->suspects[j].share < JUDGE_LEAST_SHARE) break;
        const struct judge_edge *e = &cave->edges[v->suspects[j].edge];
        struct judge_place place = judge_place_of(cave, e);
        draw_leg(p, e, "stroke=\"#c03020\" stroke-width=\"7\" stroke-linecap=\"round\"", to);
        add(to,
            "<text x=\"%.1f\" y=\"%.1f\" fill=\"#c03020\" stroke=\"white\" stroke-width=\"5\" "
            "paint-order=\"stroke\">%zu: ",
            across(p, p->at[e->to]) + 8, down(p, p->at[e->to]), j + 1);
        add_name(to, place.from);
        add(to, " - ");
        add_name(to, place.to);
        add(to, "</text>\n");
    }
}

/* A bar of a round length. */
static void draw_scale(const struct places *p, double height, growing *to) {
    double power = pow(10, floor(log10(200 / p->scale))), ratio = 200 / p->scale / power,
           metres = (ratio < 2   ? 1
                     : ratio < 5 ? 2
                                 : 5) *
                    power;
    add(to, "<line x1=\"%d\" y1=\"%.1f\" x2=\"%.1f\" y2=\"%.1f\" stroke=\"black\" stroke-width=\"3\"/>\n", MARGIN,
        height - 24, MARGIN + metres * p->scale, height - 24);
    add(to,
        "<text x=\"%d\" y=\"%.1f\">%g m; north is up; blue: in loops, orange: in a loop that is bad, grey: in no loop, "
        "red: look here</text>\n",
        MARGIN, height - 34, metres);
}

void judge_plan(const struct judge_cave *cave, const struct judge_verdict *v, growing *to) {
    struct places p = {.at = malloc((cave->survey->station_count + 1) * sizeof *p.at)};
    to->failed = to->failed || p.at == NULL || !judge_places(cave, p.at);
    if (!to->failed && cave->edge_count > 0) {
        fit(cave, &p);
        double height = 2 * MARGIN + 40 + (p.high.north - p.low.north) * p.scale;
        add(to,
            "<svg xmlns=\"http://www.w3.org/2000/svg\" viewBox=\"0 0 %d %.0f\" font-family=\"sans-serif\" "
            "font-size=\"22\">\n",
            WIDTH, height);
        add(to, "<title>The cave in plan: %s</title>\n<rect width=\"%d\" height=\"%.0f\" fill=\"white\"/>\n",
            v->sound ? "sound" : "not sound", WIDTH, height);
        draw_legs(cave, &p, to);
        draw_suspects(cave, v, &p, to);
        draw_scale(&p, height, to);
        add(to, "</svg>\n");
    }
    free(p.at);
}
