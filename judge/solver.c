/* All misses together: their covariance, factored by Cholesky, and what each passage could explain. */
#include "inside.h"

#include "../survey/mathematics.h"
#include <stdlib.h>
#include <string.h>

/* The variance that every miss has besides, in m²: a tenth of a millimetre, so that errors of 0 can be solved. */
#define LEAST_VARIANCE 1e-8

static double dot(const double *a, const double *b, size_t n) {
    double sums[4] = {0, 0, 0, 0};
    size_t j = 0;
    for (; j + 4 <= n; j += 4) {
        for (size_t k = 0; k < 4; k++) sums[k] += a[j + k] * b[j + k];
    }
    for (; j < n; j++) sums[0] += a[j] * b[j];
    return sums[0] + sums[1] + (sums[2] + sums[3]);
}

/* A = F Fᵀ, the lower triangle in place. */
static void factor(double *a, size_t n) {
    for (size_t i = 0; i < n; i++) {
        for (size_t j = 0; j < i; j++) a[i * n + j] = (a[i * n + j] - dot(a + i * n, a + j * n, j)) / a[j * n + j];
        a[i * n + i] = sqrt(fmax(a[i * n + i] - dot(a + i * n, a + i * n, i), LEAST_VARIANCE / 1e6));
    }
}

/* F⁻¹ from F, in place. */
static void invert(double *a, size_t n, double *row) {
    for (size_t i = 0; i < n; i++) {
        double own = 1 / a[i * n + i];
        memset(row, 0, n * sizeof row[0]);
        for (size_t k = 0; k < i; k++) {
            double by = a[i * n + k];
            for (size_t j = 0; j <= k; j++) row[j] -= by * a[k * n + j];
        }
        for (size_t j = 0; j < i; j++) a[i * n + j] = row[j] * own;
        a[i * n + i] = own;
        for (size_t j = i + 1; j < n; j++) a[i * n + j] = 0;
    }
}

static void add_block(double *s, size_t n, size_t row, size_t column, double sign, struct judge_spread block) {
    double *at = s + 2 * row * n + 2 * column;
    at[0] += sign * block.east;
    at[1] += sign * block.both;
    at[n] += sign * block.both;
    at[n + 1] += sign * block.north;
}

/* Adds a passage's covariance to all pairs of its loops. */
static void add_passage(const struct judge_cave *cave, const struct judge_passage *p, struct judge_spread block,
                        double *s) {
    const struct judge_part *loops = cave->passage_loops + p->at;
    for (size_t i = 0; i < p->loops; i++) {
        for (size_t j = 0; j < p->loops; j++)
            add_block(s, cave->size, loops[i].of, loops[j].of, loops[i].sign * loops[j].sign, block);
    }
}

/* What an error of one degree in a trip's compass does to all misses, for each trip that has it. */
static void add_trip(const struct judge_cave *cave, size_t trip, double *column, double *s) {
    double variance = cave->sigmas.of[JUDGE_TRIP] * cave->sigmas.of[JUDGE_TRIP];
    size_t n = cave->size;
    memset(column, 0, n * sizeof column[0]);
    for (size_t j = 0; j < cave->edge_count; j++) {
        const struct judge_edge *e = &cave->edges[j];
        if (e->kind != JUDGE_LEG || e->passage == JUDGE_NONE || cave->survey->legs[e->index].trip != trip) continue;
        const struct judge_passage *p = &cave->passages[e->passage];
        for (size_t k = 0; k < p->loops; k++) {
            const struct judge_part *loop = &cave->passage_loops[p->at + k];
            column[2 * loop->of] += loop->sign * e->sign * e->turn.east;
            column[2 * loop->of + 1] += loop->sign * e->sign * e->turn.north;
        }
    }
    for (size_t i = 0; i < n; i++) {
        for (size_t j = 0; column[i] != 0 && j < n; j++) s[i * n + j] += variance * column[i] * column[j];
    }
}

/* S, with another station error where that is not below 0. `column` has room for one column. */
static void add_up(const struct judge_cave *cave, double station, double *column, double *s) {
    memset(s, 0, cave->size * cave->size * sizeof s[0]);
    for (size_t j = 0; j < cave->edge_count; j++) {
        const struct judge_edge *e = &cave->edges[j];
        if (e->passage == JUDGE_NONE) continue;
        struct judge_spread block = e->spread;
        double other = station < 0 || e->kind != JUDGE_LEG ? 0 : 2 * (station * station - e->station * e->station);
        block.east += other;
        block.north += other;
        add_passage(cave, &cave->passages[e->passage], block, s);
    }
    for (size_t t = 0; cave->sigmas.given[JUDGE_TRIP] && t < cave->survey->trip_count; t++)
        add_trip(cave, t, column, s);
    for (size_t j = 0; j < cave->size; j++) s[j * cave->size + j] += LEAST_VARIANCE;
}

void judge_sums(const struct judge_cave *cave, struct judge_vector *sums) {
    memset(sums, 0, cave->passage_count * sizeof sums[0]);
    for (size_t j = 0; j < cave->edge_count; j++) {
        const struct judge_edge *e = &cave->edges[j];
        if (e->passage == JUDGE_NONE) continue;
        sums[e->passage].east += e->sign * e->vector.east;
        sums[e->passage].north += e->sign * e->vector.north;
    }
}

void judge_misses(const struct judge_cave *cave, const struct judge_vector *sums, double *misses) {
    for (size_t r = 0; r < cave->loop_count; r++) {
        struct judge_vector miss = {0, 0};
        for (size_t j = 0; j < cave->loops[r].passages; j++) {
            const struct judge_part *part = &cave->loop_passages[cave->loops[r].at + j];
            miss.east += part->sign * sums[part->of].east;
            miss.north += part->sign * sums[part->of].north;
        }
        misses[2 * r] = miss.east;
        misses[2 * r + 1] = miss.north;
    }
}

void judge_solved(const struct judge_cave *cave, const double *misses, double *scratch, double *u) {
    size_t n = cave->size;
    for (size_t i = 0; i < n; i++) scratch[i] = dot(cave->white + i * n, misses, i + 1);
    memset(u, 0, n * sizeof u[0]);
    for (size_t i = 0; i < n; i++) {
        for (size_t j = 0; j <= i; j++) u[j] += cave->white[i * n + j] * scratch[i];
    }
}

struct judge_vector judge_pull(const struct judge_cave *cave, const struct judge_passage *p, const double *u) {
    struct judge_vector sum = {0, 0};
    for (size_t k = 0; k < p->loops; k++) {
        const struct judge_part *loop = &cave->passage_loops[p->at + k];
        sum.east += loop->sign * u[2 * loop->of];
        sum.north += loop->sign * u[2 * loop->of + 1];
    }
    return sum;
}

double judge_form(struct judge_spread s, struct judge_vector v) {
    return s.east * v.east * v.east + 2 * s.both * v.east * v.north + s.north * v.north * v.north;
}

struct judge_spread judge_inverse(struct judge_spread s) {
    double whole = s.east * s.north - s.both * s.both;
    return (struct judge_spread){s.north / whole, -s.both / whole, s.east / whole};
}

double judge_gain(struct judge_vector pull, struct judge_spread hold, struct judge_vector move) {
    return -2 * (move.east * pull.east + move.north * pull.north) - judge_form(hold, move);
}

double judge_best_gain(struct judge_vector pull, struct judge_spread hold, struct judge_vector *move) {
    struct judge_spread inverse = judge_inverse(hold);
    if (move != NULL)
        *move = (struct judge_vector){-inverse.east * pull.east - inverse.both * pull.north,
                                      -inverse.both * pull.east - inverse.north * pull.north};
    return judge_form(inverse, pull);
}

/* The best explanation by one passage, its number of edges counted. */
double judge_statistic(const struct judge_cave *cave, const double *u) {
    double most = 0;
    for (size_t j = 0; j < cave->passage_count; j++) {
        const struct judge_passage *p = &cave->passages[j];
        most = fmax(most, judge_best_gain(judge_pull(cave, p, u), p->hold, NULL) + p->chances);
    }
    return most;
}

/* H of a passage: the columns of the whitened passage, times each other. */
static struct judge_spread hold_of(const struct judge_cave *cave, const struct judge_passage *p) {
    struct judge_spread sum = {0, 0, 0};
    for (size_t i = 0; i < cave->size; i++) {
        struct judge_vector row = judge_pull(cave, p, cave->white + i * cave->size);
        sum.east += row.east * row.east;
        sum.both += row.east * row.north;
        sum.north += row.north * row.north;
    }
    return sum;
}

/* The square of each loop's own miss in standard deviations, from the blocks of S on its diagonal. */
static void judge_loops(struct judge_cave *cave, const double *s, const double *misses) {
    size_t n = cave->size;
    for (size_t r = 0; r < cave->loop_count; r++) {
        struct judge_loop *loop = &cave->loops[r];
        const double *at = s + 2 * r * n + 2 * r;
        loop->own = judge_inverse((struct judge_spread){at[0], at[1], at[n + 1]});
        loop->miss = (struct judge_vector){misses[2 * r], misses[2 * r + 1]};
        loop->reach = judge_form(loop->own, loop->miss);
        loop->p = exp(-loop->reach / 2);
        loop->too_well = -expm1(-loop->reach / 2) < JUDGE_TOO_WELL;
    }
}

static void judge_passages(struct judge_cave *cave) {
    for (size_t j = 0; j < cave->passage_count; j++) {
        struct judge_passage *p = &cave->passages[j];
        p->pull = judge_pull(cave, p, cave->u);
        p->hold = hold_of(cave, p);
        p->gain = judge_best_gain(p->pull, p->hold, NULL);
        p->chances = 2 * log((double)p->edges);
        cave->best_gain = fmax(cave->best_gain, p->gain);
    }
    cave->statistic = judge_statistic(cave, cave->u);
}

static void add_lengths(struct judge_cave *cave) {
    for (size_t j = 0; j < cave->edge_count; j++) {
        const struct judge_edge *e = &cave->edges[j];
        if (e->kind != JUDGE_LEG || e->passage == JUDGE_NONE) continue;
        const struct judge_passage *p = &cave->passages[e->passage];
        for (size_t k = 0; k < p->loops; k++)
            cave->loops[cave->passage_loops[p->at + k].of].length += hypot(e->vector.east, e->vector.north);
    }
}

static bool solve(struct judge_cave *cave) {
    size_t n = cave->size = 2 * cave->loop_count;
    double *scratch = malloc((2 * n + 1) * sizeof *scratch);
    struct judge_vector *sums = malloc((cave->passage_count + 1) * sizeof *sums);
    cave->white = malloc((n * n + 1) * sizeof *cave->white);
    cave->u = malloc((n + 1) * sizeof *cave->u);
    bool good = scratch != NULL && sums != NULL && cave->white != NULL && cave->u != NULL;
    if (good) {
        judge_sums(cave, sums);
        judge_misses(cave, sums, scratch);
        add_up(cave, -1, scratch + n, cave->white);
        judge_loops(cave, cave->white, scratch);
        factor(cave->white, n);
        invert(cave->white, n, scratch + n);
        judge_solved(cave, scratch, scratch + n, cave->u);
        cave->misfit = dot(scratch, cave->u, n);
        judge_passages(cave);
        if (n > 2) cave->excess = fmax(1, (cave->misfit - cave->best_gain) / (double)(n - 2));
        add_lengths(cave);
    }
    free(scratch);
    free(sums);
    return good;
}

/* Q with another station error; matrix has room for the square of the size, and for two columns more. */
double judge_misfit_with(const struct judge_cave *cave, double station, double *matrix) {
    size_t n = cave->size;
    double *column = matrix + n * n, sum = 0;
    add_up(cave, station, column, matrix);
    factor(matrix, n);
    for (size_t i = 0; i < n; i++) {
        double miss = i % 2 == 0 ? cave->loops[i / 2].miss.east : cave->loops[i / 2].miss.north;
        column[i] = (miss - dot(matrix + i * n, column, i)) / matrix[i * n + i];
        sum += column[i] * column[i];
    }
    return sum;
}

struct judge_cave *judge_solve(const struct survey *s, const struct judge_sigmas *sigmas) {
    struct judge_cave *cave = calloc(1, sizeof *cave);
    if (cave == NULL) return NULL;
    cave->survey = s;
    cave->sigmas = *sigmas;
    cave->excess = 1;
    bool good = judge_network(cave) && judge_count_samples(cave);
    if (good && judge_model(cave) && solve(cave)) return cave;
    judge_free(cave);
    return NULL;
}

void judge_free(struct judge_cave *cave) {
    if (cave == NULL) return;
    free(cave->edges);
    free(cave->passages);
    free(cave->loops);
    free(cave->passage_loops);
    free(cave->loop_passages);
    free(cave->white);
    free(cave->u);
    free(cave->trips);
    free(cave->values);
    free(cave->offs);
    free(cave);
}
