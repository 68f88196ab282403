/* The steps of `jabulghi check` that need no files: its options, the cave that is solved, and plays of it. */
#include "cave.h"
#include "check.h"
#include <errno.h>
#include <stdlib.h>
#include <string.h>

/* The numbers of plays that are taken. */
#define MOST_PLAYS 10000000

int options_of_check(int *count, char **words, option asked[CHECK_ASKED]) {
    static const option OPTIONS[CHECK_ASKED] = {
        {"--sigma", false, NULL}, {"--trip", false, NULL}, {"--seeds", false, NULL}, {"--plays", false, NULL},
        {"--first", false, NULL}, {"--jobs", false, NULL}, {"--loops", true, NULL},  {"--json", true, NULL},
        {"--svg", false, NULL},   {"--merge", true, NULL}, {"-o", false, NULL}};
    memcpy(asked, OPTIONS, sizeof OPTIONS);
    int status = read_options(count, words, asked, CHECK_ASKED);
    if (status == DONE && asked[CHECK_LOOPS].value != NULL && asked[CHECK_JSON].value != NULL)
        status = wrong(EITHER, asked[CHECK_LOOPS].name, asked[CHECK_JSON].name);
    return status;
}

int numbers_of_check(const option asked[CHECK_ASKED], checked *c) {
    c->plays = 1000;
    c->threads = system_processors();
    int status = number_of(&asked[CHECK_PLAYS], MOST_PLAYS, &c->plays);
    if (status == DONE) status = number_of(&asked[CHECK_FIRST], UINT64_MAX, &c->first);
    if (status == DONE) status = number_of(&asked[CHECK_THREADS], 256, &c->threads);
    if (status == DONE && c->plays < LEAST_PLAYS) status = wrong(FEW_PLAYS, asked[CHECK_PLAYS].name, LEAST_PLAYS);
    if (status == DONE && c->threads == 0) status = wrong(NO_JOBS);
    return status;
}

/* The survey itself, or the shots of a job or a listing; a job has seeds and sigmas of its own. */
static int take_cave(text source, checked *c) {
    survey shots;
    c->name = source.name;
    if (kind_of(&source) == SURVEY) return read_cave(&source, &c->survey);
    int status = take_survey(source, (wanted_loop){ANY_LOOP, false, false}, &shots);
    if (status != DONE) return status;
    if (shots.about == JOB) {
        memcpy(c->seeds, shots.seeds, sizeof c->seeds);
        c->sigmas = (struct judge_sigmas){{shots.sigma[0] / 1000.0, shots.sigma[1] * 360 / 65536.0, 0, 0, 0, 0},
                                          {true, true, true, true, false, false},
                                          "the job"};
    }
    status = cave_of_shots(&shots, &c->survey);
    free_shots(&shots);
    return status;
}

static int seeds_for(const option *given, checked *c) {
    jabulghi_record record;
    uint32_t *n = c->seeds;
    bool own = given->value == NULL && c->sigmas.from != NULL;
    if (given->value == NULL) return own ? DONE : draw_seeds(n);
    int status = seeds_of(given, n);
    if (status != DONE) return status;
    uint32_t number = jabulghi_seed(n[0], n[1], n[2], n[3], n[4], n[5], &record);
    return number == JABULGHI_OK ? DONE : refuse_option(given->name, number);
}

int prepare_check(const option asked[CHECK_ASKED], text source, checked *c) {
    int status = take_cave(source, c);
    if (status == DONE) status = seeds_for(&asked[CHECK_SEEDS], c);
    if (status == DONE) status = errors_of(&asked[CHECK_SIGMA], &c->sigmas);
    if (status == DONE) status = trip_of(&asked[CHECK_TRIP], &c->sigmas);
    if (status != DONE) return status;
    c->cave = judge_solve(c->survey, &c->sigmas);
    return c->cave == NULL ? trouble(c->name, strerror(ENOMEM)) : DONE;
}

int room_for_plays(checked *c) {
    if (c->plays > UINT64_MAX - c->first) return refuse_option("--first", JABULGHI_COUNT_FULL);
    c->played = malloc((size_t)c->plays * sizeof c->played[0]);
    return c->played == NULL ? trouble("--plays", strerror(ENOMEM)) : DONE;
}

uint32_t play_some_of_check(void *context, uint64_t start, size_t plays) {
    checked *c = context;
    return judge_play(c->cave, c->seeds, c->first + start, plays, c->played + start);
}

int refuse_play(uint32_t number) {
    if (number == JUDGE_NO_MEMORY) return trouble("--plays", strerror(ENOMEM));
    return number == JABULGHI_OK ? DONE : refuse_option("--first", number);
}
