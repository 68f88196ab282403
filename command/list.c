/* `jabulghi list`: plays a survey, a job or a listing, and prints the listing, or the cave as Survex. */
#include "list.h"
#include "../survey/survey.h"
#include <string.h>
#include <strings.h>

/* What the words of the command line may ask for, in this order. */
enum { SIGMA, SEEDS, SKIP, RUN, FROM, LOOP, SVX, INTO, ASKED };

/* ---- Where to start */

/* The first shot line that starts at a station, or the count of them. */
static size_t shot_from(const playing *p, const char *name) {
    const char *at = (const char *)p->s.shots, *end = at + p->s.length;
    size_t length = strlen(name), head = strlen("(shot "), found = 0;
    for (; found < p->shots; found++) {
        const char *feed = memchr(at, '\n', (size_t)(end - at));
        if ((size_t)(feed - at) > head + length && memcmp(at + head, name, length) == 0 && at[head + length] == ' ')
            break;
        at = feed + 1;
    }
    return found;
}

static size_t station_named(const struct survey *s, const char *name,
                            int (*compare)(const char *one, const char *other)) {
    for (size_t j = 0; j < s->station_count; j++) {
        if (compare(s->stations[j].name, name) == 0) return s->stations[j].same;
    }
    return SURVEY_NONE;
}

/* The first leg that leaves a station of the survey, by any of its names; of a loop, by the one that stands on the leg.
 */
static size_t leg_from(const playing *p, const char *name, bool whole) {
    const struct survey *s = whole ? p->s.read : NULL;
    size_t leg = 0, station = s == NULL ? SURVEY_NONE : station_named(s, name, strcmp);
    if (s != NULL && station == SURVEY_NONE) station = station_named(s, name, strcasecmp);
    if (s != NULL) {
        while (leg < p->shots && s->stations[s->legs[leg].from].same != station) leg++;
        return leg;
    }
    while (leg < p->s.origin_count && strcasecmp(p->s.origins[leg].from, name) != 0) leg++;
    return leg < p->s.origin_count ? leg : p->shots;
}

/* A station by its name in the listing, or else in the survey. */
static int start_from(const option *given, bool whole, playing *p) {
    p->start = 0;
    if (given->value == NULL) return DONE;
    p->start = shot_from(p, given->value);
    if (p->start == p->shots) p->start = leg_from(p, given->value, whole);
    if (p->start < p->shots) return DONE;
    note(NOT_LEFT, given->name, given->value);
    return REFUSED;
}

/* ---- The command */

static int either(const option asked[ASKED]) {
    static const int OTHERS[] = {FROM, LOOP};
    for (size_t j = 0; asked[SVX].value != NULL && j < sizeof OTHERS / sizeof OTHERS[0]; j++) {
        if (asked[OTHERS[j]].value != NULL) return wrong(EITHER, asked[SVX].name, asked[OTHERS[j]].name);
    }
    return DONE;
}

/* A survey is taken whole, but where a loop of it is asked for. */
static int take(int count, char **words, const option asked[ASKED], survey *s) {
    wanted_loop wanted = {ANY_LOOP, false, true};
    text source;
    int status = number_of(&asked[LOOP], ANY_LOOP - 1, &wanted.number);
    if (status == DONE) status = read_named(count, words, &source);
    if (status != DONE) return status;
    return asked[LOOP].value == NULL ? take_whole(source, asked[SVX].value == NULL, s) : take_survey(source, wanted, s);
}

/* What is drawn is told where the output has no place for it. */
static void tell_seeds(const option asked[ASKED], const playing *p) {
    const uint32_t *n = p->seeds;
    if (asked[SEEDS].value == NULL && asked[SVX].value == NULL && p->s.about != JOB)
        note(SEEDS_DRAWN, n[0], n[1], n[2], n[3], n[4], n[5]);
}

/* Where all shots of a traverse are played, what is no loop is noted. */
static void note_loop(const option asked[ASKED], const playing *p) {
    static traverse t;
    if (p->shots > MOST_SHOTS || p->s.read != NULL || asked[FROM].value != NULL) return;
    read_shots(p->s.shots, p->s.length, false, &t);
    is_loop(p->s.source.name, &t);
}

static int set_up(int count, char **words, const option asked[ASKED], playing *p) {
    uint64_t skip = 0, run = 0;
    int status = number_of(&asked[SKIP], UINT64_MAX, &skip);
    if (status == DONE) status = number_of(&asked[RUN], UINT64_MAX, &run);
    if (status == DONE) status = take(count, words, asked, &p->s);
    if (status == DONE) status = job_settings_of(&asked[SEEDS], &asked[SIGMA], "list", &p->s);
    if (status != DONE) return status;
    memcpy(p->seeds, p->s.seeds, sizeof p->seeds);
    p->shots = count_shots(&p->s);
    status = start_from(&asked[FROM], asked[LOOP].value == NULL, p);
    return status == DONE ? skip_pairs(&p->s, skip, run, p->start, &p->before) : status;
}

int list(int count, char **words) {
    static playing p;
    growing written = {NULL, 0, 0, false};
    option asked[ASKED] = {{"--sigma", false, NULL}, {"--seeds", false, NULL}, {"--skip", false, NULL},
                           {"--run", false, NULL},   {"--from", false, NULL},  {"--loop", false, NULL},
                           {"--svx", true, NULL},    {"-o", false, NULL}};
    int status = read_options(&count, words, asked, ASKED);
    if (status == DONE) status = either(asked);
    if (status == DONE) status = set_up(count, words, asked, &p);
    if (status == DONE) status = play(&p);
    if (status != DONE) return status;
    write_to(&asked[INTO]);
    tell_seeds(asked, &p);
    note_loop(asked, &p);
    if (asked[SVX].value == NULL) return put_grown(NULL, &p.listings);
    status = p.s.read == NULL ? put_svx(&p, &written) : put_survey(&p, &written);
    return status == DONE ? put_grown(NULL, &written) : status;
}
