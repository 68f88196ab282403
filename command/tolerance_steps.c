/* The steps of `jabulghi tolerance` that need no files: its options, the loop that is played, and what is kept. */
#include "tolerance.h"
#include <stdlib.h>
#include <string.h>

static int either(const option asked[TOLERANCE_ASKED]) {
    static const int BOTH[][2] = {{TOLERANCE_CSV, TOLERANCE_JSON},  {TOLERANCE_RUN, TOLERANCE_RUNS},
                                  {TOLERANCE_RUN, TOLERANCE_FIRST}, {TOLERANCE_RUN, TOLERANCE_CSV},
                                  {TOLERANCE_RUN, TOLERANCE_JSON},  {TOLERANCE_RUN, TOLERANCE_SVG}};
    for (size_t j = 0; j < sizeof BOTH / sizeof BOTH[0]; j++) {
        const option *one = &asked[BOTH[j][0]], *other = &asked[BOTH[j][1]];
        if (one->value != NULL && other->value != NULL) return wrong(EITHER, one->name, other->name);
    }
    return DONE;
}

int options_of_tolerance(int *count, char **words, option asked[TOLERANCE_ASKED]) {
    static const option OPTIONS[TOLERANCE_ASKED] = {
        {"--sigma", false, NULL}, {"--seeds", false, NULL}, {"--runs", false, NULL}, {"--first", false, NULL},
        {"--run", false, NULL},   {"--miss", false, NULL},  {"--jobs", false, NULL}, {"--loop", false, NULL},
        {"--csv", true, NULL},    {"--json", true, NULL},   {"--svg", false, NULL},  {"--merge", true, NULL},
        {"-o", false, NULL}};
    memcpy(asked, OPTIONS, sizeof OPTIONS);
    int status = read_options(count, words, asked, TOLERANCE_ASKED);
    return status == DONE ? either(asked) : status;
}

int numbers_of_tolerance(const option asked[TOLERANCE_ASKED], task *t) {
    double miss[2] = {0, 0};
    t->runs = asked[TOLERANCE_RUN].value == NULL ? 10000 : 1;
    t->jobs = system_processors();
    t->loop = ANY_LOOP;
    int status = number_of(&asked[TOLERANCE_RUNS], MOST_RUNS, &t->runs);
    if (status == DONE) status = number_of(&asked[TOLERANCE_FIRST], UINT64_MAX, &t->first);
    if (status == DONE) status = number_of(&asked[TOLERANCE_RUN], UINT64_MAX, &t->first);
    if (status == DONE) status = number_of(&asked[TOLERANCE_THREADS], 256, &t->jobs);
    if (status == DONE && asked[TOLERANCE_MISS].value != NULL) status = miss_of(&asked[TOLERANCE_MISS], miss);
    if (status == DONE && t->runs == 0) status = wrong(NO_RUN);
    if (status == DONE && t->jobs == 0) status = wrong(NO_JOBS);
    if (status == DONE) status = number_of(&asked[TOLERANCE_LOOP], ANY_LOOP - 1, &t->loop);
    t->given = asked[TOLERANCE_MISS].value != NULL;
    t->miss = (vector){miss[0], miss[1]};
    return status;
}

int prepare_tolerance(const option asked[TOLERANCE_ASKED], text source, task *t) {
    const option *run = &asked[TOLERANCE_RUN];
    int status = take_survey(source, (wanted_loop){t->loop, true, false}, &t->s);
    if (status == DONE) status = settings_of(&asked[TOLERANCE_SEEDS], &asked[TOLERANCE_SIGMA], "tolerance", &t->s);
    if (status == DONE) status = prepare(t, run->value == NULL ? "--first" : "--run");
    t->more = more_of(t);
    if (status == DONE && run->value != NULL && t->more.east + t->more.north > 0)
        status = wrong(EITHER, run->name, "errors of stations and clino");
    return status;
}

int tally_runs(const task *t, tally *kept) {
    closed_form closed = closed_form_of(t);
    return tally_of(t, width_for(&closed), kept);
}

void free_task(task *t) {
    free_shots(&t->s);
    free(t->job);
    free(t->misses);
}
