/* The job that is played: whatever can be refused is refused before the first run. */
#include "tolerance.h"
#include <errno.h>
#include <stdlib.h>
#include <string.h>

/* The miss without noise: a play with both sigmas 0. */
static int miss_without_noise(task *t) {
    static const uint32_t NONE[2] = {0, 0};
    size_t length;
    uint32_t line;
    uint8_t *quiet = job_text(&t->s, NONE, &length);
    if (quiet == NULL) return trouble(t->s.source.name, strerror(ENOMEM));
    uint32_t number = jabulghi_play(quiet, length, 0, &t->own, 1, &line);
    free(quiet);
    return number == JABULGHI_OK ? DONE : refuse_shot(&t->s, line, number);
}

/* Where the last run has room, all have. */
static int count_for_runs(const task *t, const char *given) {
    int64_t last[1][2];
    uint32_t line, number = JABULGHI_COUNT_FULL;
    if (t->first <= UINT64_MAX - (t->runs - 1))
        number = jabulghi_play(t->job, t->length, t->first + (t->runs - 1), last, 1, &line);
    return number == JABULGHI_OK ? DONE : refuse_option(given, number);
}

int prepare(task *t, const char *given) {
    int status = miss_without_noise(t);
    if (status != DONE) return status;
    read_shots(t->s.shots, t->s.length, false, &t->shots);
    if (!is_loop(t->s.source.name, &t->shots)) return REFUSED;
    if (!t->given) t->miss = (vector){(double)t->own[0], (double)t->own[1]};
    t->job = job_text(&t->s, t->s.sigma, &t->length);
    return t->job == NULL ? trouble(t->s.source.name, strerror(ENOMEM)) : count_for_runs(t, given);
}

/* The job of the first run: the shots, and as seeds the registers of its record. */
int put_run(const task *t) {
    jabulghi_record record;
    survey s = t->s;
    size_t length;
    const uint32_t *n = s.seeds;
    if (jabulghi_seed(n[0], n[1], n[2], n[3], n[4], n[5], &record) != JABULGHI_OK)
        return refuse_option("--seeds", JABULGHI_UNFIT_STREAM_A);
    uint32_t number = jabulghi_skip(&record, t->first * t->shots.count);
    if (number != JABULGHI_OK) return refuse_option("--run", number);
    memcpy(s.seeds, record.a, sizeof record.a);
    memcpy(s.seeds + 3, record.b, sizeof record.b);
    uint8_t *made = job_text(&s, s.sigma, &length);
    return made == NULL ? trouble(s.source.name, strerror(ENOMEM)) : put(made, length);
}
