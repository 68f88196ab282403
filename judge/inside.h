/* What the files of the judge share. */
#ifndef JUDGE_INSIDE_H
#define JUDGE_INSIDE_H

#include "judge.h"

#define TURN 6.283185307179586476925286766559

/* network.c: edges, passages and loops of the cave's survey; false where memory has run out. cycles.c: a minimum cycle
 * basis of passages. */
bool judge_network(struct judge_cave *cave);
struct judge_graph {
    size_t nodes, edges;
    const size_t (*ends)[2]; /* from and to of each edge */
    const size_t *weights;
};
bool judge_cycles(const struct judge_graph *g, size_t count, struct judge_loop *loops, struct judge_part **parts);

/* model.c: the error that a reading has, JUDGE_ERRORS where *sd alone gives it; the standard deviation of that and the
 * width of its rounding; vectors and covariances of all edges; how long a leg is, in metres. */
enum judge_error judge_error_of(enum survey_quantity what);
double judge_sd_of(const struct judge_cave *cave, const struct survey_reading *r);
double judge_plumb_sd_of(const struct judge_cave *cave, const struct survey_leg *leg);
double judge_rounding_of(const struct survey_reading *r);
bool judge_is_played(const struct survey_reading *r);
bool judge_is_compass(const struct survey_reading *r);
bool judge_model(struct judge_cave *cave);
double judge_leg_length(const struct survey_leg *leg);

/* solver.c: the misses of vectors of passages; u for misses; g of a passage for any u; a covariance of all misses with
 * other station errors; t for any u. */
void judge_misses(const struct judge_cave *cave, const struct judge_vector *sums, double *misses);
void judge_solved(const struct judge_cave *cave, const double *misses, double *scratch, double *u);
struct judge_vector judge_pull(const struct judge_cave *cave, const struct judge_passage *p, const double *u);
double judge_misfit_with(const struct judge_cave *cave, double station, double *matrix);
void judge_sums(const struct judge_cave *cave, struct judge_vector *sums);
double judge_gain(struct judge_vector pull, struct judge_spread hold, struct judge_vector move);
double judge_best_gain(struct judge_vector pull, struct judge_spread hold, struct judge_vector *move);
double judge_statistic(const struct judge_cave *cave, const double *u);
double judge_form(struct judge_spread s, struct judge_vector v);
struct judge_spread judge_inverse(struct judge_spread s);

/* blunders.c: the explanations of one edge, each handed to `take`. suspects.c: the suspects, the best first. */
typedef void judge_take(void *to, const struct judge_explanation *e);
void judge_explain(const struct judge_cave *cave, const struct judge_edge *edge, judge_take *take, void *to);
void judge_explain_left_out(const struct judge_cave *cave, const struct judge_passage *p, judge_take *take, void *to);
bool judge_suspects(struct judge_cave *cave, const struct judge_played *sorted, size_t plays, struct judge_verdict *v);
double judge_share_of(double statistic, const struct judge_played *sorted, size_t plays);

/* plays.c: how many samples a play takes; false where memory has run out. */
bool judge_count_samples(struct judge_cave *cave);

/* sigmas.c */
double judge_chi_above(size_t freedom, double x);
double judge_chi_quantile(size_t freedom, double probability);
bool judge_estimates(const struct judge_cave *cave, struct judge_verdict *v);
double judge_shows(double limit);

#endif
