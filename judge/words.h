/* What the verdict's words, its JSON and its picture share. */
#ifndef JUDGE_WORDS_H
#define JUDGE_WORDS_H

#include "inside.h"

/* A suspect below this share is neither printed nor drawn, but for the first. */
#define JUDGE_LEAST_SHARE 0.01

/* Where an edge stands in the survey. */
struct judge_place {
    size_t file, line;
    const char *from, *to;
};
struct judge_place judge_place_of(const struct judge_cave *cave, const struct judge_edge *e);

/* The least and the largest standard deviation of the legs, and whether *sd or Survex's default gives all. */
struct judge_range {
    double low, high;
    bool by_sd, by_default;
};
struct judge_range judge_range_of(const struct judge_cave *cave, enum judge_error error);
const char *judge_source(const struct judge_cave *cave, enum judge_error error);

void judge_thousands(growing *to, uint64_t number);
void judge_blunder_words(const struct judge_explanation *e, growing *to);
double judge_bearing(struct judge_vector v);
double judge_length(const struct judge_cave *cave);

#endif
