/* Takes a text for what it is, a job, a listing or a Survex survey, and makes a job's shot lines of it. */
#include "cave.h"
#include "level.h"
#include <errno.h>
#include <inttypes.h>
#include <stdio.h>
#include <stdlib.h>
#include <string.h>

static bool starts_with(const text *t, const char *start) {
    return t->length >= strlen(start) && memcmp(t->bytes, start, strlen(start)) == 0;
}

static bool ends_with(const char *name, const char *end) {
    return strlen(name) >= strlen(end) && strcmp(name + strlen(name) - strlen(end), end) == 0;
}

/* What a text is: as its name says, or else its first line. */
subject kind_of(const text *t) {
    if (ends_with(t->name, ".job")) return JOB;
    if (ends_with(t->name, ".listing")) return LISTING;
    if (ends_with(t->name, ".svx")) return SURVEY;
    return starts_with(t, "(") ? JOB : starts_with(t, "FROM TO ") ? LISTING : SURVEY;
}

/* A job is taken as it stands: its shots follow the second line. */
static int take_job(survey *s) {
    static uint8_t listing[JABULGHI_LISTING_ROOM];
    uint32_t line, *n = s->seeds;
    size_t length;
    uint32_t number = jabulghi_list(s->source.bytes, s->source.length, listing, sizeof listing, &line, &length);
    if (number != JABULGHI_OK) return refuse(&s->source, JOB, line, number);
    const char *bytes = (const char *)s->source.bytes;
    char lines[160] = "";
    memcpy(lines, bytes, s->source.length < sizeof lines - 1 ? s->source.length : sizeof lines - 1);
    sscanf(lines, "(seeds (a %" SCNu32 " %" SCNu32 " %" SCNu32 ") (b %" SCNu32 " %" SCNu32 " %" SCNu32 "))", &n[0],
           &n[1], &n[2], &n[3], &n[4], &n[5]);
    const char *second = strchr(lines, '\n') + 1;
    sscanf(second, "(sigma %" SCNu32 " %" SCNu32 ")", &s->sigma[0], &s->sigma[1]);
    size_t head = (size_t)(strchr(second, '\n') + 1 - lines);
    s->shots = s->source.bytes + head;
    s->length = s->source.length - head;
    return DONE;
}

/* The shot lines of a strict survey, in room from malloc; the number of the refusal. */
static uint32_t strict_shots(const text *from, uint8_t **shots, size_t *length, size_t *line) {
    size_t room =
        3 * from->length +
        1; /* a leg of 10 bytes gives a shot line of at most 21, and a longer one at most as many bytes more */
    *shots = malloc(room);
    return *shots == NULL ? JABULGHI_OK : jabulghi_legs(from->bytes, from->length, *shots, room, line, length);
}

int shots_of(const text *from, uint8_t **shots, size_t *length) {
    size_t line;
    uint32_t number = strict_shots(from, shots, length, &line);
    if (*shots == NULL) return trouble(from->name, strerror(ENOMEM));
    return number == JABULGHI_OK ? DONE : refuse(from, SURVEY, line, number);
}

/* ---- Ordinary surveys */

static bool keep_origins(const levelling *l, survey *s) {
    s->origin_count = l->walked.count;
    s->origins = calloc(s->origin_count, sizeof *s->origins);
    for (size_t j = 0; s->origins != NULL && j < s->origin_count; j++) {
        const struct survey_leg *leg = &l->s->legs[l->walked.steps[j].leg];
        bool backwards = l->walked.steps[j].backwards;
        s->origins[j] = (origin){l->s->stations[backwards ? leg->to : leg->from].name,
                                 l->s->stations[backwards ? leg->from : leg->to].name, l->s->files[leg->file].name,
                                 leg->line, leg->up};
    }
    return s->origins != NULL;
}

static const char NOT_PROVED[] = "jabulghi: level, which reads the survey, is not proved\n";

/* The shots of legs that were found, and what is said of them. */
static int take_walk(const levelling *l, growing *said, survey *s) {
    growing shots = {NULL, 0, 0, false};
    put_shots(l, &shots);
    if (shots.failed || said->failed || !keep_origins(l, s)) return trouble(s->source.name, strerror(ENOMEM));
    if (said->length > 0) put_error("%s", said->bytes);
    free(said->bytes);
    s->shots = (uint8_t *)shots.bytes;
    s->length = shots.length;
    return DONE;
}

/* The shots of a loop. */
static int take_loop(const levelling *l, bool new_names, survey *s) {
    growing said = {NULL, 0, 0, false};
    if (new_names) say_notes(l, &said);
    else add(&said, "%s", NOT_PROVED);
    return take_walk(l, &said, s);
}

/* Tells why the loop that is wanted is not there. */
static int refuse_loop(levelling *l, const char *name) {
    growing said = {NULL, 0, 0, false};
    say_refusal(l, &said);
    if (l->why == NO_MEMORY || said.failed) return trouble(name, strerror(ENOMEM));
    put_error("%s", said.bytes);
    free(said.bytes);
    return REFUSED;
}

/* The survey that was read stays, for its names. */
static int take_ordinary(survey *s, wanted_loop wanted) {
    levelling l;
    const struct survey *cave = s->read =
        survey_read(s->source.name, s->source.bytes, s->source.length, fetch_of(&s->source), NULL);
    if (cave == NULL) return trouble(s->source.name, strerror(ENOMEM));
    bool taken = cave->trouble_count == 0, found = taken && level_survey(cave, wanted.number, wanted.needed, &l);
    if (!taken || found) tell_messages(cave);
    if (!taken) return REFUSED;
    int status = found ? take_loop(&l, wanted.renamed, s) : refuse_loop(&l, s->source.name);
    free_levelling(&l);
    return status;
}

/* All legs, in the order in which they are read. */
static int take_all_legs(survey *s, bool new_names) {
    levelling l;
    growing said = {NULL, 0, 0, false};
    const struct survey *cave = s->read =
        survey_read(s->source.name, s->source.bytes, s->source.length, fetch_of(&s->source), NULL);
    if (cave == NULL) return trouble(s->source.name, strerror(ENOMEM));
    tell_messages(cave);
    if (cave->trouble_count > 0) return REFUSED;
    if (!level_whole(cave, &l)) return refuse_loop(&l, s->source.name);
    add(&said, "%s", NOT_PROVED);
    if (new_names) say_steep(&l, &said), say_names(&l, &said);
    int status = take_walk(&l, &said, s);
    free_levelling(&l);
    return status;
}

/* ---- Strict surveys */

/* Of more legs than a job may have, one more than those, so that the library refuses it. */
static void cut_shots(survey *s) {
    size_t shots = 0;
    for (size_t at = 0; at < s->length; at++) {
        shots += s->shots[at] == '\n';
        if (shots > MOST_SHOTS) s->length = at + 1;
    }
}

/* A survey that is not strict is read as an ordinary one. */
static int take_legs(survey *s, wanted_loop wanted) {
    size_t line;
    uint32_t number = strict_shots(&s->source, &s->shots, &s->length, &line);
    if (s->shots == NULL) return trouble(s->source.name, strerror(ENOMEM));
    if (number == JABULGHI_OK && wanted.number == ANY_LOOP) return cut_shots(s), DONE;
    free(s->shots);
    s->shots = NULL;
    return take_ordinary(s, wanted);
}

/* A listing's rows as shot lines. */
static int take_listing(survey *s) {
    int64_t sums[2], millimetres[2];
    uint32_t line;
    traverse rows;
    uint32_t number = jabulghi_misclosure(s->source.bytes, s->source.length, sums, millimetres, &line);
    if (number != JABULGHI_OK) return refuse(&s->source, LISTING, line, number);
    read_shots(s->source.bytes, s->source.length, true, &rows);
    size_t room = s->source.length + rows.count * sizeof "(shot )" + 1;
    s->shots = malloc(room);
    if (s->shots == NULL) return trouble(s->source.name, strerror(ENOMEM));
    for (size_t j = 0; j < rows.count; j++) {
        const shot *r = &rows.shots[j];
        s->length +=
            (size_t)snprintf((char *)s->shots + s->length, room - s->length, "(shot %s %s %" PRIu32 " %" PRIu32 ")\n",
                             r->from, r->to, r->distance, r->bearing);
    }
    return DONE;
}

int take_survey(text source, wanted_loop wanted, survey *taken) {
    *taken = (survey){.source = source, .about = kind_of(&source)};
    return taken->about == JOB       ? take_job(taken)
           : taken->about == LISTING ? take_listing(taken)
                                     : take_legs(taken, wanted);
}

int take_whole(text source, bool new_names, survey *taken) {
    size_t line;
    *taken = (survey){.source = source, .about = source.length == 0 ? JOB : kind_of(&source)};
    if (taken->about == JOB) return take_job(taken);
    if (taken->about == LISTING) return take_listing(taken);
    uint32_t number = strict_shots(&source, &taken->shots, &taken->length, &line);
    if (taken->shots == NULL) return trouble(source.name, strerror(ENOMEM));
    if (number == JABULGHI_OK) return DONE;
    free(taken->shots);
    taken->shots = NULL;
    return take_all_legs(taken, new_names);
}

/* The shots of a job are a part of its source. */
void free_shots(survey *s) {
    if (s->about != JOB) free(s->shots);
    free(s->origins);
    survey_free(s->read);
}

/* Whether a line of a Survex text has something besides blanks and a comment. */
bool says_something(const uint8_t *at, const uint8_t *end) {
    while (at < end && (*at == ' ' || *at == '\t')) at++;
    return at < end && *at != ';' && *at != '\n';
}

/* The line of a survey that has its leg of this number: the data line is the first that says something. */
static size_t line_of_leg(const text *t, size_t leg) {
    const uint8_t *at = t->bytes, *end = at + t->length;
    for (size_t line = 1, found = 0; at < end; line++) {
        const uint8_t *feed = memchr(at, '\n', (size_t)(end - at));
        found += says_something(at, feed == NULL ? end : feed);
        if (found == leg + 1) return line;
        at = feed == NULL ? end : feed + 1;
    }
    return 0;
}

size_t line_in_source(const survey *s, size_t line) {
    if (s->about == JOB || line < 3) return line;
    return s->about == LISTING ? line - 1 : line_of_leg(&s->source, line - 2);
}

origin origin_of(const survey *s, const traverse *t, size_t leg) {
    if (leg < s->origin_count) return s->origins[leg];
    return (origin){t->shots[leg].from, t->shots[leg].to, s->source.name, line_in_source(s, leg + 3), 0};
}

int refuse_shot(const survey *s, size_t line, uint32_t number) {
    if (s->origins == NULL || line < 3 || line - 3 >= s->origin_count)
        return refuse(&s->source, s->about, line_in_source(s, line), number);
    text from = s->source;
    from.name = s->origins[line - 3].file;
    return refuse(&from, s->about, s->origins[line - 3].line, number);
}
