/* The legs that explain the misses best, ranked, and what remains where one is corrected. */
#include "inside.h"

#include "../survey/mathematics.h"
#include <stdlib.h>
#include <string.h>

/* log(exp a + exp b), the larger one before. */
static double sum_of(double a, double b) {
    double larger = fmax(a, b), smaller = fmin(a, b);
    return smaller == -INFINITY ? larger : larger + log1p(exp(smaller - larger));
}

/* The mass of a suspect while its explanations come in. */
static void collect(void *to, const struct judge_explanation *e) {
    struct judge_suspect *s = to;
    if (s->mass == -INFINITY || e->mass > s->best.mass) s->best = *e;
    s->mass = sum_of(s->mass, e->mass);
}

static int by_mass(const void *a, const void *b) {
    const struct judge_suspect *one = a, *other = b;
    if (one->mass != other->mass) return one->mass > other->mass ? -1 : 1;
    return (one->edge > other->edge) - (one->edge < other->edge);
}

static size_t first_leg_of(const struct judge_cave *cave, size_t passage) {
    size_t e = cave->passages[passage].first;
    while (cave->edges[e].passage != passage || cave->edges[e].kind != JUDGE_LEG) e++;
    return e;
}

static void find_suspects(const struct judge_cave *cave, struct judge_verdict *v) {
    double sum = -INFINITY;
    for (size_t e = 0; e < cave->edge_count; e++) {
        if (cave->edges[e].passage == JUDGE_NONE) continue;
        struct judge_suspect *s = &v->suspects[v->suspect_count++];
        *s = (struct judge_suspect){.edge = e, .mass = -INFINITY};
        judge_explain(cave, &cave->edges[e], collect, s);
    }
    for (size_t p = 0; p < cave->passage_count; p++) {
        if (cave->passages[p].legs == 0) continue;
        struct judge_suspect *s = &v->suspects[v->suspect_count++];
        *s = (struct judge_suspect){.edge = first_leg_of(cave, p), .mass = -INFINITY};
        judge_explain_left_out(cave, &cave->passages[p], collect, s);
    }
    for (size_t j = 0; j < v->suspect_count; j++) sum = sum_of(sum, v->suspects[j].mass);
    for (size_t j = 0; j < v->suspect_count; j++) v->suspects[j].share = exp(v->suspects[j].mass - sum);
}

/* The statistic once a passage has moved; column and u have room for the size. */
static double statistic_with(const struct judge_cave *cave, const struct judge_passage *p, struct judge_vector move,
                             double *misses, double *u) {
    double *scratch = misses + cave->size;
    memset(misses, 0, cave->size * sizeof misses[0]);
    for (size_t k = 0; k < p->loops; k++) {
        const struct judge_part *loop = &cave->passage_loops[p->at + k];
        misses[2 * loop->of] = loop->sign * move.east;
        misses[2 * loop->of + 1] = loop->sign * move.north;
    }
    judge_solved(cave, misses, scratch, u);
    for (size_t j = 0; j < cave->size; j++) u[j] += cave->u[j];
    return judge_statistic(cave, u);
}

/* At most so many suspects are kept, and none that no blunder explains. */
#define MOST_CORRECTED 1000

static bool find_what_remains(const struct judge_cave *cave, const struct judge_played *sorted, size_t plays,
                              struct judge_verdict *v) {
    double *room = malloc((3 * cave->size + 1) * sizeof *room);
    size_t well = 0;
    if (room == NULL) return false;
    for (size_t j = 0; j < v->suspect_count; j++) {
        struct judge_suspect *s = &v->suspects[j];
        const struct judge_edge *e = &cave->edges[s->edge];
        double sign = s->best.blunder == JUDGE_LEFT_OUT ? 1 : e->sign;
        struct judge_vector move = {sign * s->best.move.east, sign * s->best.move.north};
        double statistic = statistic_with(cave, &cave->passages[e->passage], move, room, room + 2 * cave->size);
        s->remains = judge_share_of(statistic, sorted, plays);
        well += s->remains >= JUDGE_LIMIT;
    }
    for (size_t j = 0; j < v->suspect_count; j++)
        v->suspects[j].others = well - (v->suspects[j].remains >= JUDGE_LIMIT);
    free(room);
    return true;
}

bool judge_suspects(struct judge_cave *cave, const struct judge_played *sorted, size_t plays, struct judge_verdict *v) {
    v->suspects = malloc((cave->edge_count + cave->passage_count + 1) * sizeof *v->suspects);
    if (v->suspects == NULL) return false;
    find_suspects(cave, v);
    qsort(v->suspects, v->suspect_count, sizeof v->suspects[0], by_mass);
    if (v->suspect_count > MOST_CORRECTED) v->suspect_count = MOST_CORRECTED;
    while (v->suspect_count > 1 && v->suspects[v->suspect_count - 1].mass == -INFINITY) v->suspect_count--;
    return find_what_remains(cave, sorted, plays, v);
}
