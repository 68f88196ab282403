/* Judges a cave in plan: whether its loops close as well as its instruments allow, and which legs explain it best where
 * they do not. docs/check.md has the formulas. No input or output and no state of its own. Nothing of it is proved but
 * the noise that it plays with. */
#ifndef JUDGE_H
#define JUDGE_H

#include "../command/growing.h"
#include "../survey/survey.h"
#include "jabulghi.h"

/* Standard deviations in metres and degrees, JUDGE_POINT being that of a fixed point which has none of its own. Where
 * one is not given, the survey's own holds, for JUDGE_POINT JUDGE_POINT_ERROR, and for JUDGE_TRIP none. */
#define JUDGE_POINT_ERROR 1.0
enum judge_error { JUDGE_TAPE, JUDGE_COMPASS, JUDGE_CLINO, JUDGE_STATION, JUDGE_POINT, JUDGE_TRIP, JUDGE_ERRORS };
struct judge_sigmas {
    double of[JUDGE_ERRORS];
    bool given[JUDGE_ERRORS];
    const char *from; /* what gave them, in words */
};

/* Below this share of sound caves a cave, or a loop, is unsound; and one that closes better than all but this share
 * closes too well. */
#define JUDGE_LIMIT 0.05
#define JUDGE_TOO_WELL 0.001

struct judge_vector {
    double east, north;
};

/* A covariance of east and north, or its inverse. */
struct judge_spread {
    double east, both, north;
};

#define JUDGE_NONE SIZE_MAX

/* A leg, an equate or a fixed point: `index` is its place in the survey. A fixed point is seen from the node after all
 * stations. */
enum judge_kind { JUDGE_LEG, JUDGE_EQUATE, JUDGE_FIX };
struct judge_edge {
    enum judge_kind kind;
    size_t index, from, to;
    size_t passage;                   /* JUDGE_NONE where the edge is in no loop */
    int sign;                         /* 1 where it runs along its passage, -1 where it runs against it */
    struct judge_vector vector, turn; /* its vector, and how that goes with its compass, in m per degree */
    struct judge_spread spread;
    double station; /* m, of either end */
};

/* Edges that no loop tells apart. */
struct judge_passage {
    size_t edges, legs, first; /* how many, and its first edge */
    size_t loops, at;          /* in so many loops: `passage_loops` from `at` on */
    struct judge_vector pull;  /* g: half the slope of the misfit, as the passage moves */
    struct judge_spread hold;  /* H */
    double gain;               /* of the best move */
    double chances;            /* 2 ln of its edges, each of which may have the blunder */
    double shows;              /* λ: what a move has to be, in standard deviations, to show */
};

/* A passage of a loop, or a loop of a passage, and the direction. */
struct judge_part {
    size_t of;
    int sign;
};

struct judge_loop {
    size_t passages, at; /* `loop_passages` from `at` on */
    size_t legs;
    double length; /* m in plan */
    struct judge_vector miss;
    struct judge_spread own; /* the inverse of its own covariance */
    double reach;            /* q: the square of the miss in standard deviations */
    double p;                /* sound loops that miss by as much */
    bool bad, too_well;
};

/* What a reading is off by: the standard deviation of its error, and the width of its rounding. */
struct judge_off {
    double sd, rounding;
};

/* What is kept of one play. */
struct judge_played {
    double worst_passage, worst_loop;
};

/* A cave that is solved. `white` is the inverse of the Cholesky factor of all misses' covariance, its rows below each
 * other; u is S⁻¹ m. */
struct judge_cave {
    const struct survey *survey;
    struct judge_sigmas sigmas;
    struct judge_edge *edges;
    struct judge_passage *passages;
    struct judge_loop *loops;
    struct judge_part *passage_loops, *loop_passages;
    size_t edge_count, passage_count, loop_count, size; /* size: two for each loop */
    double *white, *u;
    double misfit;    /* Q */
    double statistic; /* t */
    double best_gain; /* of all moves of one passage */
    double excess;    /* k: by how much variances seem too small where the best explanation is left out, at least 1 */
    size_t legs_in_no_loop, samples;        /* samples: how many a play takes */
    size_t most_readings;                   /* that a leg has */
    double *values;                         /* room for as many, where one thread works */
    double usual_length, spread_of_lengths; /* mean and standard deviation of the logarithms of the legs' lengths */
    struct judge_off *offs;                 /* of all readings that are played, in their order */
    size_t trip_count, *trips;              /* the place of each trip of the survey among those with a leg in a loop */
};

/* What surveyors do wrong. */
enum judge_blunder {
    JUDGE_DISTANCE,
    JUDGE_DECIMAL,
    JUDGE_FEET,
    JUDGE_BEARING,
    JUDGE_BACKWARDS,
    JUDGE_EXCHANGED,
    JUDGE_MISREAD,
    JUDGE_ANY_DISTANCE,
    JUDGE_ANY_BEARING,
    JUDGE_LEFT_OUT,
    JUDGE_EQUATED,
    JUDGE_FIXED,
};

/* What would explain the misses: the logarithm of its mass, the correction as metres or degrees, and as a vector; where
 * a reading is wrong as written, which and what it should be. */
struct judge_explanation {
    enum judge_blunder blunder;
    double mass, gain, correction;
    struct judge_vector move;
    const struct survey_reading *reading;
    char should_be[24];
};

struct judge_suspect {
    size_t edge; /* for JUDGE_LEFT_OUT the first leg of its passage */
    struct judge_explanation best;
    double mass;    /* the logarithm of that of all its explanations */
    double share;   /* of all explanations by one blunder */
    double remains; /* sound caves that look as bad as this one would, corrected */
    size_t others;  /* how many other suspects, corrected, leave a sound cave */
};

/* A figure with its range. */
struct judge_estimate {
    double value, low, high;
};

struct judge_verdict {
    uint64_t first, plays, beyond; /* plays that look as bad */
    double p;
    bool sound, too_well;
    size_t bad_loops, suspect_count;
    struct judge_suspect *suspects; /* the best first */
    struct judge_estimate factor, station;
    double factor_without; /* the first suspect */
    double limit;          /* t05 */
    double shows;          /* λ of a passage of one edge */
};

/* solver.c: reads nothing but the survey; NULL where memory has run out. */
struct judge_cave *judge_solve(const struct survey *s, const struct judge_sigmas *sigmas);
void judge_free(struct judge_cave *cave);

/* plays.c: so many plays from one on, by the noise of the proved library; its number, or JUDGE_NO_MEMORY. */
#define JUDGE_NO_MEMORY 1000
uint32_t judge_play(const struct judge_cave *cave, const uint32_t seeds[6], uint64_t first, size_t count,
                    struct judge_played *played);

/* The same plays, of which the misses of one loop are kept, in metres. */
uint32_t judge_play_loop(const struct judge_cave *cave, const uint32_t seeds[6], uint64_t first, size_t count,
                         size_t loop, struct judge_vector *misses);

/* verdict.c: what the plays, whose order does not matter, say of the cave; false where memory has run out. It sorts
 * them. */
bool judge_verdict_of(struct judge_cave *cave, uint64_t first, struct judge_played *played, size_t plays,
                      struct judge_verdict *verdict);
void judge_verdict_free(struct judge_verdict *verdict);

/* The sum of the diagonals of H over all passages: it tells errors apart, where the statistic alone would not. */
double judge_hold(const struct judge_cave *cave);

/* The smallest blunders of a leg that would have shown in 80 % of cases, once there is a verdict: metres, and degrees
 * or 0 for none. */
struct judge_vector judge_smallest(const struct judge_cave *cave, const struct judge_edge *edge);

/* words.c, words_json.c, plan.c: the verdict for a person, for a program, and as a picture. */
struct judge_told {
    const char *name;
    const uint32_t *seeds;
    bool all_loops;
    const struct judge_played *played; /* those that json gives for merging; NULL for none */
};
void judge_words(const struct judge_cave *cave, const struct judge_verdict *v, const struct judge_told *told,
                 growing *to);
void judge_json(const struct judge_cave *cave, const struct judge_verdict *v, const struct judge_told *told,
                growing *to);
void judge_plan(const struct judge_cave *cave, const struct judge_verdict *v, growing *to);

/* plan.c: where stations stand, in metres, for one more than there are; false where memory has run out. */
bool judge_places(const struct judge_cave *cave, struct judge_vector *at);

#endif
