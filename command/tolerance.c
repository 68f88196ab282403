/* jabulghi tolerance: plays a loop many times and says how its miss compares. */
#include "tolerance.h"
#include <errno.h>
#include <stdlib.h>
#include <string.h>

/* Options that say nothing where runs are merged. */
static int alone(const option asked[TOLERANCE_ASKED]) {
    static const int OTHERS[] = {TOLERANCE_SIGMA, TOLERANCE_SEEDS,   TOLERANCE_RUNS, TOLERANCE_FIRST, TOLERANCE_RUN,
                                 TOLERANCE_MISS,  TOLERANCE_THREADS, TOLERANCE_LOOP, TOLERANCE_CSV};
    for (size_t j = 0; j < sizeof OTHERS / sizeof OTHERS[0]; j++) {
        if (asked[OTHERS[j]].value != NULL) return wrong(NOT_MERGED, asked[OTHERS[j]].name);
    }
    return DONE;
}

static int write_all(const option asked[TOLERANCE_ASKED], const task *t, const tally *kept) {
    growing written = {NULL, 0, 0, false};
    int status = DONE;
    if (asked[TOLERANCE_SVG].value != NULL) {
        draw(t, kept, &written);
        status = put_grown(asked[TOLERANCE_SVG].value, &written);
    }
    if (status != DONE) return status;
    if (asked[TOLERANCE_CSV].value != NULL) return put_csv(t);
    if (asked[TOLERANCE_JSON].value != NULL) report_json(t, kept, &written);
    else report(t, kept, &written);
    return put_grown(NULL, &written);
}

static int run_merged(int count, char **words, const option asked[TOLERANCE_ASKED]) {
    static task t;
    tally all;
    int status = alone(asked);
    if (status == DONE && count == 0) status = wrong(LACKS_FILE, asked[TOLERANCE_MERGE].name);
    if (status == DONE) status = merge(count, words, &t, &all);
    return status == DONE ? write_all(asked, &t, &all) : status;
}

/* Rows of runs do not say what seeds they came from. */
static void tell_seeds(const option asked[TOLERANCE_ASKED], const task *t) {
    const uint32_t *n = t->s.seeds;
    if (asked[TOLERANCE_CSV].value != NULL && asked[TOLERANCE_SEEDS].value == NULL && t->s.about != JOB)
        note(SEEDS_DRAWN, n[0], n[1], n[2], n[3], n[4], n[5]);
}

static int run(int count, char **words, const option asked[TOLERANCE_ASKED]) {
    static task t;
    tally kept;
    text source;
    int status = numbers_of_tolerance(asked, &t);
    if (status == DONE) status = read_named(count, words, &source);
    if (status == DONE) status = prepare_tolerance(asked, source, &t);
    if (status != DONE) return status;
    if (asked[TOLERANCE_RUN].value != NULL) return put_run(&t);
    tell_seeds(asked, &t);
    status = play_all(&t);
    if (status == DONE) status = tally_runs(&t, &kept);
    return status == DONE ? write_all(asked, &t, &kept) : status;
}

int tolerance(int count, char **words) {
    option asked[TOLERANCE_ASKED];
    int status = options_of_tolerance(&count, words, asked);
    if (status != DONE) return status;
    write_to(&asked[TOLERANCE_INTO]);
    return asked[TOLERANCE_MERGE].value != NULL ? run_merged(count, words, asked) : run(count, words, asked);
}
