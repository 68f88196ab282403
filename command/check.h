/* What the parts of `jabulghi check` share. */
#ifndef CHECK_H
#define CHECK_H

#include "traverse.h"

#include "../judge/judge.h"

/* What the words of the command line may ask for, in this order. */
enum {
    CHECK_SIGMA,
    CHECK_TRIP,
    CHECK_SEEDS,
    CHECK_PLAYS,
    CHECK_FIRST,
    CHECK_THREADS,
    CHECK_LOOPS,
    CHECK_JSON,
    CHECK_SVG,
    CHECK_MERGE,
    CHECK_INTO,
    CHECK_ASKED
};

/* Fewer plays say too little. */
#define LEAST_PLAYS 100

/* A cave that is checked. */
typedef struct {
    const char *name;
    struct survey *survey;
    struct judge_sigmas sigmas;
    struct judge_cave *cave;
    struct judge_played *played;
    uint32_t seeds[6];
    uint64_t first, plays, threads;
} checked;

/* check_steps.c: takes the options out of the words; the numbers among them; reads and solves the cave; room for its
 * plays, some of them, and what a number that is none of success means. */
int options_of_check(int *count, char **words, option asked[CHECK_ASKED]);
int numbers_of_check(const option asked[CHECK_ASKED], checked *c);
int prepare_check(const option asked[CHECK_ASKED], text source, checked *c);
int room_for_plays(checked *c);
uint32_t play_some_of_check(void *context, uint64_t start, size_t plays);
int refuse_play(uint32_t number);

/* errors.c: the standard deviations of --sigma, tape=10mm,compass=1deg,clino=1deg,station=50mm or the two of tape and
 * compass alone; and of --trip. */
int errors_of(const option *given, struct judge_sigmas *sigmas);
int trip_of(const option *given, struct judge_sigmas *sigmas);

/* The same of a loop's shots, tape in whole millimetres and compass in steps; for a survey or a listing both are
 * needed. */
int shot_errors_of(const option *given, survey *s);

/* check_merge.c: the plays of parts that --json wrote of one cave with the same seeds. */
struct merged {
    const struct judge_cave *cave;
    struct judge_played **played;
    uint64_t *first, *plays;
    uint32_t *seeds;
};
int merge_plays(int count, char **names, const struct merged *all);

#endif
