/* A job from a survey, a listing or another job: seeds, sigmas and the shots. */
#include "check.h"
#include "traverse.h"
#include <errno.h>
#include <inttypes.h>
#include <stdio.h>
#include <stdlib.h>
#include <string.h>

/* The seeds that are given, else a job's own, else some that are drawn. */
static int seeds_for(const option *given, survey *s) {
    jabulghi_record record;
    uint32_t *n = s->seeds;
    if (given->value == NULL) return s->about == JOB ? DONE : draw_seeds(n);
    int status = seeds_of(given, n);
    if (status != DONE) return status;
    uint32_t number = jabulghi_seed(n[0], n[1], n[2], n[3], n[4], n[5], &record);
    return number == JABULGHI_OK ? DONE : refuse_option(given->name, number);
}

int settings_of(const option *seeds, const option *sigma, const char *command, survey *s) {
    int status = DONE;
    if (sigma->value != NULL) {
        status = shot_errors_of(sigma, s);
    } else if (s->about != JOB) {
        status = wrong(NEEDS, command, sigma->name);
    }
    return status == DONE ? seeds_for(seeds, s) : status;
}

int job_settings_of(const option *seeds, const option *sigma, const char *command, survey *s) {
    int status = settings_of(seeds, sigma, command, s);
    if (status == DONE && (s->station > 0 || s->clino > 0)) status = wrong(NO_PLACE, sigma->name, sigma->value);
    return status;
}

size_t count_shots(const survey *s) {
    size_t shots = 0;
    for (size_t at = 0; at < s->length; at++) shots += s->shots[at] == '\n';
    return shots;
}

/* Whether the count has room for all shots is asked of the library before any is played. */
int skip_pairs(survey *s, uint64_t skip, uint64_t run, size_t from, uint64_t *before) {
    jabulghi_record record, last;
    uint64_t shots = count_shots(s);
    const uint32_t *n = s->seeds;
    uint32_t number = jabulghi_seed(n[0], n[1], n[2], n[3], n[4], n[5], &record);
    if (number != JABULGHI_OK) return refuse_option("--seeds", number);
    number = jabulghi_skip(&record, skip);
    if (number != JABULGHI_OK) return refuse_option("--skip", number);
    last = record;
    bool fits = shots == 0 || run < UINT64_MAX / shots;
    number = fits ? jabulghi_skip(&last, (run + (shots > 0)) * shots) : JABULGHI_COUNT_FULL;
    if (number == JABULGHI_OK) number = jabulghi_skip(&record, run * shots + from);
    if (number != JABULGHI_OK) return refuse_option(run > 0 ? "--run" : "--skip", number);
    memcpy(s->seeds, record.a, sizeof record.a);
    memcpy(s->seeds + 3, record.b, sizeof record.b);
    if (before != NULL) *before = record.count - from;
    return DONE;
}

uint8_t *job_text(const survey *s, const uint32_t sigma[2], size_t *length) {
    const uint32_t *n = s->seeds;
    size_t room = 160 + s->length;
    char *job = malloc(room);
    if (job == NULL) return NULL;
    *length = (size_t)snprintf(job, room, SEEDS_LINE "\n(sigma %" PRIu32 " %" PRIu32 ")\n", n[0], n[1], n[2], n[3],
                               n[4], n[5], sigma[0], sigma[1]);
    memcpy(job + *length, s->shots, s->length);
    *length += s->length;
    return (uint8_t *)job;
}

/* Writes a job that the library accepts, whole or not at all. */
static int write_job(const survey *s) {
    static uint8_t listing[JABULGHI_LISTING_ROOM];
    size_t length, listed;
    uint32_t line;
    traverse t;
    uint8_t *made = job_text(s, s->sigma, &length);
    if (made == NULL) return trouble(s->source.name, strerror(ENOMEM));
    uint32_t number = jabulghi_list(made, length, listing, sizeof listing, &line, &listed);
    if (number != JABULGHI_OK) return refuse_shot(s, line, number);
    read_shots(made, length, false, &t);
    is_loop(s->source.name, &t);
    return put(made, length);
}

int job(int count, char **words) {
    option options[] = {{"--sigma", false, NULL}, {"--seeds", false, NULL}, {"--skip", false, NULL},
                        {"--run", false, NULL},   {"--loop", false, NULL},  {"-o", false, NULL}};
    wanted_loop wanted = {ANY_LOOP, false, true};
    uint64_t skip = 0, run = 0;
    text source;
    survey s;
    int status = read_options(&count, words, options, 6);
    if (status == DONE) status = number_of(&options[2], UINT64_MAX, &skip);
    if (status == DONE) status = number_of(&options[3], UINT64_MAX, &run);
    if (status == DONE) status = number_of(&options[4], ANY_LOOP - 1, &wanted.number);
    if (status == DONE) status = read_named(count, words, &source);
    if (status == DONE) status = take_survey(source, wanted, &s);
    if (status == DONE) status = job_settings_of(&options[1], &options[0], "job", &s);
    if (status == DONE) status = skip_pairs(&s, skip, run, 0, NULL);
    if (status != DONE) return status;
    write_to(&options[5]);
    return write_job(&s);
}
